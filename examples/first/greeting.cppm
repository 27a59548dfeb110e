export module greeting;
import people;
import text.format;

export void greet() { }

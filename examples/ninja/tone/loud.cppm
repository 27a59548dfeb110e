export module loud;

export const char *mark() { return "!"; }

export module numbers;

export int one_more(int number) { return number + 1; }

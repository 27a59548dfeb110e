export module text:words;

export int letters(const char *word);

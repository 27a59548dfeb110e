export module text;
export import :words;

export const char *greeting();

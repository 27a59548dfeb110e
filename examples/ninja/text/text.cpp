module text;
import numbers;

const char *greeting() { return "Hello"; }

int letters(const char *word) {
    int count = 0;
    while (*word++)
        count = one_more(count);
    return count;
}

#include <cstdio>
#include "tone.h"
import text;

int main() {
    std::printf("%s, with %d letters%s\n", greeting(), letters(greeting()), mark());
}

/*
 * Times Augeas on program K: bench FOLDER SOURCE REVERSED, where FOLDER has
 * k.aug and REVERSED is the source with its entries reversed. For each letter on
 * standard input it makes one call and prints how many nanoseconds it took: g a
 * get (text to tree), p a put of the unedited tree, r a put of the tree with its
 * entries reversed. The lens is compiled and checked before, and not timed.
 */
#include <augeas.h>
#include <stdio.h>
#include <stdlib.h>
#include <string.h>
#include <time.h>

static double now(void) {
    struct timespec time;
    clock_gettime(CLOCK_MONOTONIC, &time);
    return time.tv_sec * 1e9 + time.tv_nsec;
}

static void fail(const char *what) {
    fprintf(stderr, "augeas: %s\n", what);
    exit(1);
}

static double get(augeas *aug) {
    double start = now();
    if (aug_text_store(aug, "K.lns", "/in", "/tree") < 0) fail("get fails");
    return now() - start;
}

static double put(augeas *aug, const char *tree, const char *expected) {
    double start = now();
    if (aug_text_retrieve(aug, "K.lns", "/in", tree, "/out") < 0) fail("put fails");
    double took = now() - start;
    const char *text = NULL;
    aug_get(aug, "/out", &text);
    if (!text || strcmp(text, expected) != 0) fail("put gives another source");
    return took;
}

/* The entries of /tree, in /reversed from the last to the first. */
static void reverse(augeas *aug) {
    char **paths;
    int entries = aug_match(aug, "/tree/*", &paths);
    for (int entry = entries - 1; entry >= 0; entry--) {
        char path[64];
        snprintf(path, sizeof path, "/reversed%s", strrchr(paths[entry], '/'));
        if (aug_set(aug, path, NULL) < 0) fail("the tree is not reversed");
        free(paths[entry]);
    }
    free(paths);
}

int main(int count, char **arguments) {
    if (count != 4) fail("bench FOLDER SOURCE REVERSED");
    augeas *aug = aug_init(NULL, arguments[1], AUG_NO_STDINC | AUG_NO_LOAD | AUG_NO_MODL_AUTOLOAD | AUG_TYPE_CHECK);
    if (!aug || aug_error(aug)) fail("does not start");
    if (aug_set(aug, "/in", arguments[2]) < 0) fail("the source is not taken");
    get(aug);
    reverse(aug);
    for (int letter = getchar(); letter != EOF; letter = getchar()) {
        if (letter == 'g') printf("%.0f\n", get(aug));
        if (letter == 'p') printf("%.0f\n", put(aug, "/tree", arguments[2]));
        if (letter == 'r') printf("%.0f\n", put(aug, "/reversed", arguments[3]));
        fflush(stdout);
    }
    aug_close(aug);
    return 0;
}

/* Stands in for the command line where the C library's start-up passes none (picolibc): the test
 * program's main is renamed to test_main, and ARGUMENTS holds its arguments. */
int test_main(int count, char **arguments);
#undef main
int main(void) {
    static char *arguments[] = {ARGUMENTS, 0};
    return test_main((int)(sizeof arguments / sizeof *arguments) - 1, arguments);
}

_Noreturn void exit(int status);
int putchar(int byte);
extern const int most;
void check(int n) {
    putchar('0' + n % 10);
    if (n >= most) exit(most * 2);
}

int square(int number);

void _start(void)
{
    square(3);
    for (;;) {
    }
}

int square(int number)
{
    return number * number;
}

int dropped(int number)
{
    return number + 1;
}

/* A program that calls by an application interface block. */
int AIBTDLI();

int main(void)
{
    return AIBTDLI("GU  ", 0);
}

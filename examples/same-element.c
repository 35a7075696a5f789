int main(void) {
  int *a = calloc(2, sizeof(int));
  cobegin {
    { a[0] = 1; }
    { a[0] = 2; }
  }
  print(a[0]);
  print(a[1]);
  return 0;
}

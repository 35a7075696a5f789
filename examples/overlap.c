void fill(int *a, int lo, int hi, int v) {
  int i = lo;
  while (i < hi) { a[i] = v; i = i + 1; }
}
int main(int *in, int n) {
  if (n < 2) { return 0; }
  int mid = n / 2;
  cobegin {
    { fill(in, 0, mid + 1, 1); }
    { fill(in, mid, n, 2); }
  }
  print(in[0]);
  print(in[n - 1]);
  return 0;
}

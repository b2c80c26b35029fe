// How often each of 256 values comes among a million, and how often each pair of neighbours is equal: one object holds all.
class Image {
public:
  long pixel[1000000];
  long bin[256];
  long same, most;
  void make(long n) {
    long seed = 17;
    for (long i = 0; i < n; i++) {
      seed = (seed * 1103515245 + 12345) % 2147483648;
      pixel[i] = seed / 65536 % 256;
    }
  }
  void add(long v) { bin[v] += 1; }
  void count(long n) {
    for (long i = 0; i < n; i++) add(pixel[i]);
  }
  void equal(long i) {
    if (pixel[i] == pixel[i + 1]) same += 1;
  }
  void pairs(long n) {
    for (long i = 0; i < n - 1; i++) equal(i);
  }
  void rise(long v) { most = max(most, v); }
  void highest() {
    for (long i = 0; i < 256; i++) rise(bin[i]);
  }
};
int main() {
  Image *image = new Image();
  image->make(1000000);
  image->count(1000000);
  image->pairs(1000000);
  image->highest();
  print(image->most);
  print(image->same);
}

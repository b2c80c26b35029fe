// Letters: of literal strings, of arrays, pointers that walk over both.
#include <cctype>
#include <cstdio>
#include <iostream>
static const char *text = "12+3*(4-1)/2";
static int at = 0;
static long sum();
static long factor() {
  if (text[at] == '(') {
    at++;
    long v = sum();
    at++;
    return v;
  }
  long v = 0;
  while (isdigit(text[at])) v = v * 10 + (text[at++] - '0');
  return v;
}
static long term() {
  long v = factor();
  while (text[at] == '*' || text[at] == '/') {
    char op = text[at++];
    long r = factor();
    v = op == '*' ? v * r : v / r;
  }
  return v;
}
static long sum() {
  long v = term();
  while (text[at] == '+' || text[at] == '-') {
    char op = text[at++];
    long r = term();
    v = op == '+' ? v + r : v - r;
  }
  return v;
}
static int length(const char *s) {
  int n = 0;
  while (*s++) n++;
  return n;
}
static bool same(const char *a, const char *b) {
  for (; *a && *a == *b; ++a, ++b) {
  }
  return *a == *b;
}
int main() {
  long v = sum();
  printf("%s = %ld\n", text, v);
  int vowels = 0;
  for (const char *p = "a walk over words"; *p; ++p)
    if (*p == 'a' || *p == 'e' || *p == 'i' || *p == 'o' || *p == 'u') vowels++;
  char word[] = "reverse", room[20];
  int n = length(word);
  for (int i = 0; i < n / 2; i++) {
    char c = word[i];
    word[i] = word[n - 1 - i];
    word[n - 1 - i] = c;
  }
  for (int i = 0; i <= n; i++) room[i] = toupper(word[i]);
  printf("%d %s %d\n", vowels, word, length("four"));
  std::cout << room << ' ' << same(word, "esrever") << same("ab", "abc") << '\n';
  const char *words[] = {"one", "two", "three"};
  int letters[26] = {};
  for (const char *w : words)
    for (int i = 0; w[i]; i++) letters[w[i] - 'a']++;
  for (int i = 0; i < 26; i++)
    if (letters[i]) printf("%c%d", 'a' + i, letters[i]);
  printf("\n");
}

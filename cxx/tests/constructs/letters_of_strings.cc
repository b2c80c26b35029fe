// std::string of literals, letter by letter: its length, its letters, loops over it.
#include <cstdio>
#include <iostream>
#include <string>
#include <vector>
struct Word {
  std::string text;
  explicit Word(const std::string &t) : text(t) {}
  int vowels() const {
    int n = 0;
    for (char c : text)
      if (c == 'a' || c == 'e' || c == 'i' || c == 'o' || c == 'u') n++;
    return n;
  }
  bool is_palindrome() const {
    for (size_t i = 0; i < text.size() / 2; i++)
      if (text[i] != text[text.size() - 1 - i]) return false;
    return true;
  }
};
int main() {
  std::vector<Word *> all = {new Word("level"), new Word("otter"), new Word(""), new Word("a")};
  for (const Word *w : all) {
    std::cout << w->text << ' ' << w->text.length() << ' ' << w->vowels() << ' ' << w->is_palindrome() << '\n';
    long code = 7;
    for (auto c : w->text) code = code * 31 + c;
    printf("%ld\n", code);
  }
  std::string name = "zebra";
  printf("%c%c %zu\n", name.front(), name.at(4), name.size());
  int seen = 3;
  const int &watched = seen;
  seen += 4;
  printf("%d\n", watched);
}

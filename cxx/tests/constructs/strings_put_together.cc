// std::string that is put together: +, +=, to_string, letters that change, parts, places, comparisons, prints with a width.
#include <algorithm>
#include <cstdio>
#include <cstring>
#include <iomanip>
#include <iostream>
#include <map>
#include <string>
#include <vector>
class Node {
  std::string name;
  std::vector<Node *> parts;

public:
  explicit Node(std::string n) : name(std::move(n)) {}
  const std::string &called() const { return name; }
  Node *add(const std::string &n) {
    parts.push_back(new Node(name + "." + n));
    return parts.back();
  }
  std::string all() const {
    std::string text = name;
    if (parts.empty()) return text;
    text += '(';
    for (size_t i = 0; i < parts.size(); i++) text += (i ? ", " : "") + parts[i]->all();
    return text + ')';
  }
};
static std::string backwards(std::string text) {
  std::reverse(text.begin(), text.end());
  return text;
}
static long weight(const char *letters) {
  long sum = 0;
  for (const char *at = letters; *at; ++at) sum = sum * 3 + *at;
  return sum;
}
static std::string roman(int n) {
  const int values[] = {10, 9, 5, 4, 1};
  const std::string letters[] = {"X", "IX", "V", "IV", "I"};
  std::string made;
  for (int i = 0; i < 5; i++)
    while (n >= values[i]) {
      made += letters[i];
      n -= values[i];
    }
  return made;
}
int main() {
  Node root("r");
  for (int i = 0; i < 3; i++) root.add("n" + std::to_string(i))->add(std::string(i, '*'));
  std::cout << root.all() << '\n';
  std::string word = "parallel", empty;
  word[0] = 'P';
  for (char &c : word)
    if (c == 'l') c = 'L';
  word.push_back('!');
  std::cout << word << ' ' << word.size() << ' ' << word.substr(2, 3) << ' ' << word.find("LL") << ' ' << word.find('a', 2) << '\n';
  std::cout << (word.find("xyz") == std::string::npos) << (word == "ParaLLeL!") << (word < "Q") << ("Z" > word) << empty.empty() << '\n';
  std::cout << '[' << std::setw(6) << roman(7) << std::left << std::setw(6) << roman(9) << std::right << "]\n";
  printf("%s|%8s|%-8s|%.2s\n", word.c_str(), roman(14).c_str(), roman(3).c_str(), backwards("abcd").c_str());
  std::map<std::string, int> counts;
  const char *names[] = {"pear", "fig", "apple", "fig"};
  for (auto n : names) counts[std::string("the ") + n]++;
  for (const auto &[name, n] : counts) std::cout << name << ' ' << n << '\n';
  std::vector<std::string> sorted = {"pear", "fig", "apple", ""};
  sorted.push_back(sorted[1] + sorted[2]);
  std::sort(sorted.begin(), sorted.end());
  for (const std::string &s : sorted) std::cout << s << ';';
  sorted[0].append(3, 'x').insert(1, "--");
  sorted[1].erase(2);
  std::string copy = sorted[0];
  copy.back() = '?';
  std::cout << sorted[0] << sorted[1] << copy << std::to_string(-120L) << std::stoi("-42") + 2 << std::endl;
  const char *at = copy.c_str();
  long more = 0;
  while (*at) more = more * 5 + *at++;
  printf("%ld %ld %zu %d\n", weight(copy.c_str()), more, strlen(word.c_str()), strcmp(word.c_str(), "ParaLLeL!"));
  char row[8] = "abc";
  std::cout << '[' << std::setw(5) << row << "]\n";
  printf("[%5s]\n", row);
}

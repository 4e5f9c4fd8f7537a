/* counts the words of a text */
int count(const char *text) {
  int words = 0; /* so far */
  int inside = 0;
  for (; *text; text++) {
    int letter = *text != ' ';
    if (letter && !inside) words++;
    inside = letter;
  }
  print("words: ", words);
  return words;
}

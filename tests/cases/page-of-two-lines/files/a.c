int main(void){ int i, s = 0; /* "<b>" & so on */
for (i = 0; i < 6; i++) if (i & 1) s += i; putchar(s + 48); return s; }

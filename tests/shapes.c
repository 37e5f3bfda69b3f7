/* Writes the tables of crates/k_base_tests/src/tests/shapes.rt: what the C library's printf writes for conversions of
   numbers. Each line is a conversion, a number and a text; the number of a real is its code.

       gcc -o shapes tests/shapes.c && ./shapes */
#include <inttypes.h>
#include <stdio.h>
#include <string.h>

#define MANY(a) (int)(sizeof (a) / sizeof *(a))

static void text(const char *made) {
    for (; *made; made++) {
        if (*made == '"' || *made == '\\') putchar('\\');
        putchar(*made);
    }
    printf("\\n\\\n");
}

static void signed_rows(const char *format, const long long *numbers, int many) {
    char made[5000];
    for (int i = 0; i < many; i++) {
        if (strstr(format, "ll")) snprintf(made, sizeof made, format, numbers[i]);
        else snprintf(made, sizeof made, format, (int)numbers[i]);
        printf("%s|%lld|", format, strstr(format, "ll") ? numbers[i] : (int)numbers[i]);
        text(made);
    }
}

static void unsigned_rows(const char *format, const unsigned long long *numbers, int many) {
    char made[5000];
    for (int i = 0; i < many; i++) {
        if (strstr(format, "ll")) snprintf(made, sizeof made, format, numbers[i]);
        else snprintf(made, sizeof made, format, (unsigned)numbers[i]);
        printf("%s|%llu|", format, strstr(format, "ll") ? numbers[i] : (unsigned)numbers[i]);
        text(made);
    }
}

static void real_rows(const char *format, const double *numbers, int many) {
    char made[5000];
    for (int i = 0; i < many; i++) {
        uint64_t code;
        memcpy(&code, numbers + i, sizeof code);
        snprintf(made, sizeof made, format, numbers[i]);
        printf("%s|%" PRIu64 "|", format, code);
        text(made);
    }
}

static void table(const char *name, const char *what) {
    printf("/// %s\nstatic %s: &str = \"\\\n", what, name);
}

int main(void) {
    const char *decimal[] = {"%d", "%5d", "%-5d", "%05d", "%-05d", "%+d", "% d", "%+ d", "%+5d", "% 05d", "%.3d", "%8.3d",
        "%-8.3d", "%08.3d", "%.0d", "%+.0d", "%3.0d", "%lld", "%24lld", "%+-24lld", "%+024lld", "%.24lld", "%20i"};
    const long long whole[] = {0, 1, -1, 42, -42, 123456, -2147483647 - 1};
    const long long wide[] = {0, -7, 9223372036854775807, -9223372036854775807 - 1};
    const char *based[] = {"%u", "%12u", "%-12u", "%012u", "%.12u", "%.0u", "%o", "%#o", "%.0o", "%#.0o", "%8o", "%#8o", "%#08o",
        "%#-8o", "%.4o", "%#.4o", "%#12.4o", "%x", "%#x", "%X", "%#X", "%.0x", "%#.0x", "%10x", "%#10x", "%#010x", "%-#10x",
        "%#.6x", "%#12.6X", "%#012.6x", "%020x", "%llu", "%#llo", "%#llx", "%#24llX", "%#024llx"};
    const unsigned long long some[] = {0, 1, 8, 255, 4294967295};
    const unsigned long long great[] = {0, 255, 18446744073709551615ull};
    const char *bytes[] = {"%c", "%5c", "%-5c", "%1c"};
    const long long letters[] = {65, 97, 321, 126};
    const char *reals[] = {"%f", "%10.3f", "%-10.3f", "%010.3f", "%+f", "% f", "%.0f", "%+.0f", "%6.1lf", "%F", "%08F", "%e", "%.0e",
        "%14.3e", "%-14.3e", "%014.3e", "%E", "%+.2E", "%g", "%.3g", "%.0g", "%12g", "%-12g", "%012g", "%+g", "% g", "%G", "%.10G"};
    const double points[] = {0.0, -0.0, 1.0, 3.25, -2.5, 0.1, 1e-5, 123456789.0, 1e100, 1.0 / 0.0, -1.0 / 0.0}, least[] = {5e-324};
    table("DECIMAL", "Conversions with a sign.");
    for (int i = 0; i < MANY(decimal); i++)
        if (strstr(decimal[i], "ll")) signed_rows(decimal[i], wide, MANY(wide));
        else signed_rows(decimal[i], whole, MANY(whole));
    printf("\";\n\n");
    table("BASED", "Conversions without a sign.");
    for (int i = 0; i < MANY(based); i++)
        if (strstr(based[i], "ll")) unsigned_rows(based[i], great, MANY(great));
        else unsigned_rows(based[i], some, MANY(some));
    printf("\";\n\n");
    table("BYTES", "Bytes.");
    for (int i = 0; i < MANY(bytes); i++) signed_rows(bytes[i], letters, MANY(letters));
    printf("\";\n\n");
    table("REALS", "Conversions of reals.");
    for (int i = 0; i < MANY(reals); i++) real_rows(reals[i], points, MANY(points));
    real_rows("%.3e", least, 1);
    real_rows("%+012G", least, 1);
    printf("\";\n");
    return 0;
}

/* A bare reader of ASCII STL, for comparison: no exact lines, no checks beyond the keywords. */
#include <stdio.h>
#include <stdlib.h>
#include <string.h>
#include <strings.h>

struct corner { int x, y, z; };
struct triangle { struct corner c[3]; };

static char *skip(char *p) { while (*p == ' ' || *p == '\t' || *p == '\r') p++; return p; }

static int microns(char **p)
{
    double mm = strtod(*p, p);
    return (int)(mm * 1000 + (mm < 0 ? -0.5 : 0.5));
}

int main(int count, char **words)
{
    FILE *f = count > 1 ? fopen(words[1], "rb") : NULL;
    if (!f) return 1;
    fseek(f, 0, SEEK_END);
    long length = ftell(f);
    rewind(f);
    char *text = malloc(length + 1);
    if (fread(text, 1, length, f) != (size_t)length) return 1;
    text[length] = 0;
    size_t room = 1024, kept = 0;
    struct triangle *triangles = malloc(room * sizeof *triangles), next;
    int corner = 0;
    for (char *line = text; line < text + length;) {
        char *end = memchr(line, '\n', text + length - line);
        if (!end) end = text + length;
        char *word = skip(line);
        if (!strncasecmp(word, "vertex", 6)) {
            char *p = word + 6;
            struct corner c;
            c.x = microns(&p); c.y = microns(&p); c.z = microns(&p);
            if (corner < 3) next.c[corner++] = c;
        } else if (!strncasecmp(word, "endfacet", 8)) {
            if (kept == room) triangles = realloc(triangles, (room *= 2) * sizeof *triangles);
            triangles[kept++] = next;
            corner = 0;
        }
        line = end + 1;
    }
    printf("%zu\n", kept);
    return 0;
}

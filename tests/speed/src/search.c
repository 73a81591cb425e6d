/* The plain judgement: each pair of coordinates beside each of 256 points, in an ordinary loop. */
#include <stddef.h>
#include <stdint.h>

enum { POINTS = 256 };

typedef struct {
    double i, q;
} pair;

/* as the library's */
typedef struct {
    uint64_t number, agreeing, differing, lost, none, first;
} judgement;

judgement plain_judge(const pair *points, const uint8_t *labels, const pair *pairs, size_t length);

static double distance(pair a, pair b)
{
    const double i = a.i - b.i, q = a.q - b.q;
    return i * i + q * q;
}

/* The label whose point is nearest, of equal distances the lowest. */
static unsigned nearest(const pair *points, pair p)
{
    double least = distance(p, points[0]);
    unsigned label, found = 0;
    for (label = 1; label < POINTS; label++) {
        const double d = distance(p, points[label]);
        if (d < least) {
            least = d;
            found = label;
        }
    }
    return found;
}

/* No pair is lost, and nothing is asked about. */
judgement plain_judge(const pair *points, const uint8_t *labels, const pair *pairs, size_t length)
{
    judgement j = {0, 0, 0, 0, 1, 0};
    size_t place;
    for (place = 0; place < length; place++) {
        if (nearest(points, pairs[place]) == labels[place]) {
            j.agreeing++;
        } else {
            if (j.differing == 0)
                j.first = place;
            j.differing++;
        }
    }
    j.none = j.differing == 0;
    return j;
}

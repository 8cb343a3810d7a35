#include "refusals.h"
#include "lightplan.h"

/* what is wrong, and what the place counts */
struct meaning {
    const char *fault, *place;
};

static const char offset[] = "the byte, counted from 0, where that field begins";
static const char position[] = "its listing position, counted from 0";

static const struct meaning meanings[] = {
    [LIGHTPLAN_PAST_END] = {"a field runs past the end of the file", offset},
    [LIGHTPLAN_WRONG_TAG] = {"a field has a tag that may not stand there", offset},
    [LIGHTPLAN_WRONG_LENGTH] = {"a field has a length that is wrong for its tag", offset},
    [LIGHTPLAN_BAND_OUTSIDE] = {"a number of the band is out of its range", offset},
    [LIGHTPLAN_BAD_LINK] = {"a field is a link beyond the 64th, or one that leads back to its own node", offset},
    [LIGHTPLAN_TOO_MANY_DEMANDS] = {"a field is a 201st demand", offset},
    [LIGHTPLAN_BAD_ROUTE] = {"a demand's route breaks, meets a node twice, or has a link that is not listed or stands in it twice", offset},
    [LIGHTPLAN_IDENT_USED] = {"a demand has an ident that an earlier one has", offset},
    [LIGHTPLAN_BAD_WIDTH] = {"a demand's width is 0, or above the slot count", offset},
    [LIGHTPLAN_BUFFER_SHORT] = {"a result buffer is too short", "how many entries it needs"},
    [LIGHTPLAN_TOO_MANY_TO_SEARCH] = {"it has more than the 20 demands that can be searched", "how many it has"},
    [LIGHTPLAN_UNKNOWN_IDENT] = {"a row has an ident that no demand of the request has", offset},
    [LIGHTPLAN_IDENT_SEEN] = {"a row has an ident that an earlier row has", offset},
    [LIGHTPLAN_NO_ROW] = {"a demand of the request has no row", position},
    [LIGHTPLAN_END_ABOVE] = {"a row's demand ends above the band", offset},
    [LIGHTPLAN_CLASH] = {"a demand clashes with an earlier one: they share a link, and the guard does not part them", position},
    [LIGHTPLAN_FILE_TOO_LONG] = {"the file is too long", "how many bytes it may have"},
    [LIGHTPLAN_UNKNOWN_RATE] = {"a demand's bit rate is none of 10, 40, 100, 400 and 1000 Gbit/s", offset},
    [LIGHTPLAN_GROUPS_OUTSIDE] = {"it cannot be cut into so many groups: there can be 1 to 8, and no more than it has demands",
                                  "how many were asked for"},
    [LIGHTPLAN_NO_CERTIFICATE] = {"it has not one weight for each demand, or demands of which no two share a link weigh too much together",
                                  "the listing position, counted from 0, of the first of these, or how many demands there are"},
};

enum { MEANINGS = sizeof meanings / sizeof meanings[0] };

static const struct meaning cut_off = {"the file ends without a band or a link", "its length in bytes"};
static const struct meaning unknown = {"of a kind that this program has no words for", "where it is"};

static const struct meaning *meaning_of(unsigned number, size_t place, size_t file_bytes)
{
    if (number == LIGHTPLAN_WRONG_TAG && place == file_bytes)
        return &cut_off;
    if (number >= MEANINGS || !meanings[number].fault)
        return &unknown;
    return &meanings[number];
}

void print_refusal(FILE *out, unsigned number, size_t place, const char *which, size_t file_bytes)
{
    const struct meaning *meaning = meaning_of(number, place, file_bytes);
    fprintf(out, "refused %u %zu\n", number, place);
    fprintf(out, "The %s is refused: %s. Place %zu is %s.\n", which, meaning->fault, place, meaning->place);
}

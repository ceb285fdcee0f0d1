/* Refusals in words (include/viskorrel_words.h). */
#include "viskorrel_words.h"

#define EXPORTED __attribute__((visibility("default")))

EXPORTED const char *viskorrel_words(uint32_t number)
{
    static const char *const words[] = {
        "d is below 0",
        "the fraction is not within 0..1, or NaN",
        "the blob starts with \"GP\" and has under 8 bytes",
        "GeoPackage header: the version is not 0",
        "GeoPackage header: the bit for extended types is set",
        "GeoPackage header: a reserved bit is set",
        "GeoPackage header: the envelope indicator is 5, 6 or 7",
        "the blob ends in the envelope",
        "a geometry's header, an SRID, a count or a run of coordinates is longer than the bytes left",
        "a byte order is above 1",
        "a geometry has an unknown kind",
        "a geometry stands more than 32 levels deep",
        "operations on two blobs: the type at the top has no Z",
        "interpolation: there is a point or face, or no segment",
        "the floats or the table of that side are too short",
        "the output is too short, even where the answer is nothing",
        "operations by the least distance: the rule is a number other than 1 or 2",
        "join: the SRIDs of the two blobs differ",
        "join: a geometry would stand more than 32 levels deep",
        "job: a command is unknown, or the tape ends before 04 or inside a command",
        "job: a number is matched that is not loaded",
        "job: there are more hits than the shortest list has places",
    };

    return number >= 1 && number <= sizeof words / sizeof words[0] ? words[number - 1] : "a number outside the table";
}

/* SpatiaLite's own encoding: 00, byte order, SRID, box, 7C, geometry, FE; or its short form for points, of 24, 32 or 40 bytes. */
static int is_spatialite(const uint8_t *blob, size_t length)
{
    if (!blob || length < 24 || blob[0] != 0x00 || blob[length - 1] != 0xFE)
        return 0;
    if (blob[1] == 0x80 || blob[1] == 0x81)
        return length == 24 || length == 32 || length == 40;
    return blob[1] <= 1 && length > 43 && blob[38] == 0x7C;
}

EXPORTED const char *viskorrel_advice(uint32_t number, const uint8_t *blob, size_t length)
{
    if (number >= 3 && number <= 13 && is_spatialite(blob, length))
        return "it looks like a blob of SpatiaLite's own; ogr2ogr -f GPKG OUT.gpkg FILE.sqlite writes GeoPackage blobs";
    if (number == 11)
        return "if it is a curve, ogr2ogr -nlt CONVERT_TO_LINEAR -nlt LINESTRING makes lines of it (of a face: -nlt POLYGON)";
    if (number == 13)
        return "ogr2ogr -zfield COLUMN takes heights from a column";
    return 0;
}

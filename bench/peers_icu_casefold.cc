// ICU's NFKC_Casefold from UTF-8 to UTF-8, which can be called from C++ alone: the key is written straight into the lent buffer,
// and no memory is got for a name. It is another fold than RFC 5051's, by a table of its own: it composes, folds case in full,
// leaves out what is ignorable, and takes octets that are no UTF-8 as they come.
#include "peers.h"
#include <unicode/bytestream.h>
#include <unicode/normalizer2.h>
#include <unicode/stringpiece.h>

static struct text prepare(const struct table *, struct text text, struct buffer key) {
    static const icu::Normalizer2 *casefold;
    UErrorCode status = U_ZERO_ERROR;
    if (!casefold) casefold = icu::Normalizer2::getNFKCCasefoldInstance(status);
    icu::CheckedArrayByteSink sink(reinterpret_cast<char *>(key.octets), static_cast<int32_t>(key.length));
    if (U_SUCCESS(status)) {
        icu::StringPiece source(reinterpret_cast<const char *>(text.octets), static_cast<int32_t>(text.length));
        casefold->normalizeUTF8(0, source, sink, nullptr, status);
    }
    if (U_FAILURE(status) || sink.Overflowed()) return {nullptr, 0};
    return {key.octets, static_cast<size_t>(sink.NumberOfBytesWritten())};
}

static bool equal(const struct table *table, struct text first, struct text second, struct buffer first_key,
                  struct buffer second_key) {
    return same_octets(prepare(table, first, first_key), prepare(table, second, second_key));
}

const struct peer icu_casefold_peer = {.name = "ICU NFKC_Casefold", .prepare = prepare, .equal = equal};

// From C++: a record is sealed, opened, and refused where a byte of it is another; a log is marked, checked, and
// refused where its mark is another.
#include <cba.h>

#include <cstdio>
#include <string>
#include <vector>

namespace {

typedef std::vector<std::uint8_t> Bytes;

const std::uint32_t set = 10;
const std::size_t tag = 12;
const Bytes key(32, 7);
const Bytes nonce(12, 1);
const Bytes data; // none: its pointer may be null
const Bytes key_of_marks(24, 9);

Bytes sealed(const Bytes &text)
{
    Bytes out(text.size() + tag);
    const std::uint32_t answer = cba_seal(set, key.data(), key.size(), nonce.data(), nonce.size(), data.data(),
                                          data.size(), text.data(), text.size(), out.data(), out.size());
    return answer == CBA_OK ? out : Bytes();
}

std::uint32_t open(const Bytes &text, Bytes &out)
{
    return cba_open(set, key.data(), key.size(), nonce.data(), nonce.size(), data.data(), data.size(), text.data(),
                    text.size(), out.data(), out.size());
}

bool fail(const char *why)
{
    std::fprintf(stderr, "cplusplus: %s\n", why);
    return false;
}

bool round_trip(const Bytes &text)
{
    Bytes record = sealed(text), out(text.size());
    if (record.size() != text.size() + tag)
        return fail("not sealed");
    if (open(record, out) != CBA_OK || out != text)
        return fail("not opened");
    record.back() ^= 1;
    if (open(record, out) != CBA_FALSE || out != Bytes(text.size(), 0))
        return fail("not refused as false");
    return true;
}

std::uint32_t check(const Bytes &log, const Bytes &mark)
{
    return cmac_check(key_of_marks.data(), key_of_marks.size(), log.data(), log.size(), mark.data(), mark.size());
}

bool marked(const Bytes &log)
{
    Bytes mark(16);
    if (cmac_make(key_of_marks.data(), key_of_marks.size(), log.data(), log.size(), mark.size(), mark.data(),
                  mark.size()) != CBA_OK)
        return fail("not marked");
    if (check(log, mark) != CBA_OK)
        return fail("not the log's mark");
    mark.back() ^= 1;
    if (check(log, mark) != CBA_FALSE)
        return fail("another mark is not refused as false");
    return check(log, Bytes(3)) == CBA_MARK || fail("a mark of 3 bytes is not refused");
}

} // namespace

int main()
{
    const std::string words = "2000 m in 7:42.5, 28 strokes a minute";
    const Bytes text(words.begin(), words.end());
    return round_trip(Bytes()) && round_trip(text) && marked(Bytes()) && marked(text) ? 0 : 1;
}

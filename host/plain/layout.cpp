#include "layout.hpp"

#include <limits>

#include "format.hpp"

namespace plain {

namespace {

constexpr std::int32_t anyType = 0;
constexpr std::int32_t trimmingCurve = 142;
constexpr std::int32_t subfigureDefinition = 308;
constexpr std::int64_t unlimited = std::numeric_limits<std::int64_t>::max();
constexpr std::int64_t greatestK = 10'000;

// Goes over the values from left to right. A wrong kind, count or range is refused on the spot; a wrong reference waits for the
// end, since any 14 of an entity goes before its 15. A count may be far above the values given: places past them cost nothing.
class Walk {
public:
    Walk(const Directory &directory, Value *values, std::size_t count, std::uint64_t place)
        : directory_(directory), values_(values), count_(static_cast<std::int64_t>(count)), place_(place) {}

    void layout(std::int32_t type);
    void group();
    void end();

private:
    enum class Want { Any, Given };

    const Value *next() { return at_ < count_ ? &values_[at_] : nullptr; }
    void require(bool good) const {
        if (!good) refuse(Fault::Layout, place_);
    }

    void reals(std::int64_t times) { eachReal(times, Want::Any, false); }
    void givenReals(std::int64_t times) { eachReal(times, Want::Given, false); }
    void weights(std::int64_t times) { eachReal(times, Want::Given, true); }
    void eachReal(std::int64_t times, Want want, bool aboveZero);
    std::int64_t integer(std::int64_t from, std::int64_t to, Want want = Want::Any);
    void flags(std::int64_t times) {
        for (; times > 0; --times) integer(0, 1, Want::Given);
    }
    std::int64_t count() { return integer(0, unlimited); }
    void string();
    void reference(std::int32_t type, bool mustBeGiven);
    void references(std::int64_t times, std::int32_t type = anyType);

    void curve();
    void surface();
    void trimmedSurface();

    const Directory &directory_;
    Value *values_;
    std::int64_t count_;
    std::uint64_t place_;
    std::int64_t at_ = 0;
    bool badReference_ = false;
};

void Walk::layout(std::int32_t type) {
    switch (type) {
        case 100: return reals(7);
        case 102: return references(count());
        case 110: return reals(6);
        case 116: return reals(3), reference(anyType, false);
        case 124: return reals(12);
        case 126: return curve();
        case 128: return surface();
        case 142:
            integer(0, 3);
            reference(anyType, true);
            reference(anyType, false);
            reference(anyType, false);
            integer(0, 3);
            return;
        case 144: return trimmedSurface();
        case 308:
            integer(0, unlimited);
            string();
            return references(count());
        case 314: return reals(3), string();
        case 402: return references(count());
        case 406: integer(1, 1); return string();
        case 408: return reference(subfigureDefinition, true), reals(4);
        default: return;
    }
}

void Walk::curve() {
    const std::int64_t k = integer(1, greatestK, Want::Given);
    const std::int64_t m = integer(1, k, Want::Given);
    flags(4);
    givenReals(k + m + 2);
    weights(k + 1);
    givenReals(3 * (k + 1));
    givenReals(2);
    reals(3);
}

void Walk::surface() {
    const std::int64_t k1 = integer(1, greatestK, Want::Given);
    const std::int64_t k2 = integer(1, greatestK, Want::Given);
    const std::int64_t m1 = integer(1, k1, Want::Given);
    const std::int64_t m2 = integer(1, k2, Want::Given);
    flags(5);
    givenReals(k1 + m1 + 2);
    givenReals(k2 + m2 + 2);
    const std::int64_t c = (k1 + 1) * (k2 + 1);
    weights(c);
    givenReals(3 * c);
    givenReals(4);
}

void Walk::trimmedSurface() {
    reference(anyType, true);
    const bool outerIsGiven = integer(0, 1) == 1;
    const std::int64_t inner = count();
    reference(trimmingCurve, outerIsGiven);
    references(inner, trimmingCurve);
}

void Walk::group() { references(count()); }

void Walk::end() {
    for (; const Value *value = next(); ++at_) require(value->kind == Kind::Default);
    if (badReference_) refuse(Fault::Reference, place_);
}

void Walk::eachReal(std::int64_t times, Want want, bool aboveZero) {
    for (; times > 0 && at_ < count_; --times, ++at_) {
        const Value &value = values_[at_];
        require(value.isNumber() || (value.kind == Kind::Default && want == Want::Any));
        require(!aboveZero || value.aboveZero);
    }
    require(times == 0 || want == Want::Any);
}

std::int64_t Walk::integer(std::int64_t from, std::int64_t to, Want want) {
    const Value *const value = next();
    const bool given = value && value->kind != Kind::Default;
    require(given ? value->kind == Kind::Integer : want == Want::Any);
    const std::int64_t worth = given ? value->whole : 0;
    require(worth >= from && worth <= to);
    ++at_;
    return worth;
}

void Walk::string() {
    const Value *const value = next();
    require(!value || value->kind == Kind::String || value->kind == Kind::Default);
    ++at_;
}

void Walk::reference(std::int32_t type, bool mustBeGiven) {
    std::int64_t number = 0;
    if (at_ < count_) {
        Value &value = values_[at_];
        require(value.kind == Kind::Integer || value.kind == Kind::Default);
        value.reference = true;
        number = value.whole;
    }
    ++at_;
    if (number == 0) {
        badReference_ |= mustBeGiven;
        return;
    }
    const Entry *const target = named(directory_, number);
    badReference_ |= !target || (type != anyType && (*target)[Type] != type);
}

void Walk::references(std::int64_t times, std::int32_t type) {
    for (; times > 0 && at_ < count_; --times) reference(type, true);
    badReference_ |= times > 0;
}

struct Listed {
    std::int32_t type;
    std::int32_t form;
};
constexpr std::int32_t anyForm = -1;

// Bit 0 of a list upward.
constexpr Listed listed[] = {
    {100, anyForm}, {102, anyForm}, {110, anyForm}, {116, anyForm}, {124, anyForm}, {126, anyForm}, {128, anyForm},
    {142, anyForm}, {144, anyForm}, {308, anyForm}, {314, anyForm}, {402, 7},       {406, 15},      {408, anyForm},
};

}  // namespace

bool isKnown(std::uint64_t list, const Entry &entry) {
    for (std::size_t bit = 0; bit < sizeof listed / sizeof listed[0]; ++bit)
        if (listed[bit].type == entry[Type])
            return (list >> bit & 1) != 0 && (listed[bit].form == anyForm || listed[bit].form == entry[Form]);
    return false;
}

void checkLayout(const Directory &directory, const Entry &entry, Value *values, std::size_t count, std::uint64_t place) {
    Walk walk(directory, values, count, place);
    walk.layout(entry[Type]);
    walk.group();
    walk.group();
    walk.end();
}

}  // namespace plain

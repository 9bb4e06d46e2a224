// The class of docs/BINDINGS.md: a place that is made, used and freed.
#include "place.hpp"

#include <cstdint>

int main() {
    Place place;
    hs_told told{};
    const std::uint8_t key[] = {'a'};
    if (hs_slicelet_serve(place.get(), key, 1, 1, &told) != HS_OTHER_PLACE)
        return 1;
    if (hs_slicelet_open(place.get(), key, 1, 2) != HS_DONE)
        return 2;
    if (hs_slicelet_serve(place.get(), key, 1, 1, &told) != HS_DOWN)
        return 3;
    if (hs_slicelet_start(place.get(), 1, 2) != HS_DONE)
        return 4;
    return hs_slicelet_serve(place.get(), key, 1, 3, &told) == HS_NO_LEASE ? 0 : 5;
}

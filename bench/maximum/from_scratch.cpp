// Each maximum matching is worked out anew.
//
//     from_scratch [--trace] < stream
#include "maximum.h"

using namespace maximum;

int main(int argc, char** argv) {
    return run(argc, argv, [](const Links& links, const Matching&) {
        lemon::MaxMatching<Graph> search(links.graph());
        search.run();
        return found(search, links);
    });
}

// Each maximum matching is worked out from what is left of the one before.
//
//     from_last [--trace] < stream
#include "maximum.h"

using namespace maximum;

namespace {

// Which links join partners, as a map of the library.
struct Paired {
    const Links& links;
    const Matching& matching;

    bool operator[](Graph::Edge link) const {
        const Graph& graph = links.graph();
        return matching.partners[links.load(graph.u(link))] == links.load(graph.v(link));
    }
};

}  // namespace

int main(int argc, char** argv) {
    return run(argc, argv, [](const Links& links, const Matching& last) {
        lemon::MaxMatching<Graph> search(links.graph());
        search.matchingInit(Paired{links, last});
        search.startSparse();
        return found(search, links);
    });
}

// Reads deals as PBN has them, one a line, and prints for each the tricks that libdds finds: for spades, hearts,
// diamonds, clubs and no trumps those of North, East, South and West.
#include <dds/dll.h>

#include <cstdio>
#include <iostream>
#include <string>

int main() {
    SetMaxThreads(0);
    std::string line;
    while (std::getline(std::cin, line)) {
        ddTableDealPBN deal = {};
        ddTableResults table = {};
        if (line.size() >= sizeof deal.cards) {
            return 1;
        }
        line.copy(deal.cards, line.size());
        if (CalcDDtablePBN(deal, &table) != RETURN_NO_FAULT) {
            std::printf("refused\n");
            continue;
        }
        for (const auto &strain : table.resTable) {
            for (int tricks : strain) {
                std::printf("%d ", tricks);
            }
        }
        std::printf("\n");
    }
    return 0;
}

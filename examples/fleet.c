/* One card of a fleet, held in memory: a script is run and taken back, another
 * is run and confirmed. The card, the scripts and what must come out are the
 * paper's ("The worked card"). */
#include "worked.h"

int main(void)
{
    fill_files();
    const struct memories before = worked;

    run("update, three commands", update, sizeof update, 3, "039000");
    show("  6F46 starts with", worked.files, 2, "0141");
    show_journal(18, 1);

    check(rfm_card_take_back(&card).number == RFM_DONE, "taken back");
    check(memcmp(&worked, &before, sizeof worked) == 0, "  table, files and journal as before");

    run("increase, three commands", increase, sizeof increase, 3, "039000000005000005");
    show("  6F39, place of the newest record", &worked.table[4].newest, 1, "02");
    show_journal(28, 1);

    check(rfm_card_confirm(&card).number == RFM_DONE, "confirmed");
    check(memcmp(&worked.journal, &before.journal, sizeof worked.journal) == 0, "  journal zero");
    show("  6F39, newest record", worked.files + 29 + 2 * 3, 3, "000005");

    const struct rfm_result again = rfm_card_take_back(&card);
    check(again.number == RFM_NOTHING_ON_TRIAL, "taken back once more: nothing is left");
    printf("  %s\n", rfm_number_text(again.number));
    return status;
}

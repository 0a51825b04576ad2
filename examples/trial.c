/* A trial period: three scripts are run, the newest is taken back, the rest are
 * confirmed. After each call every byte of table, file memory and journal is held
 * to a card that is made by hand, from the paper's rules:
 *
 *   A run appends a mark to the journal, a command that writes the old bytes and
 *   where they stood. Each entry ends in 8 bytes: kind (1 mark, 2 file memory, 3
 *   table), 0, place (2), number of old bytes (2), 0, 0. A place in the table is
 *   16 times the entry's number, and the byte. */
#include "worked.h"

/* What the paper's scripts put into the journal, in 18 and 28 bytes. INCREASE writes
 * the oldest of three records, which is in place 2 if the newest is in place 0: at
 * 29 + 2 * 3 = 35. Byte 9 of entry 4 is at 73. */
static const uint8_t update_entries[] = {
    1, 0, 0, 0, 0, 0, 0, 0,              /* mark */
    0xFF, 0xFF, 2, 0, 0, 0, 0, 2, 0, 0,  /* 2 bytes of 6F46, which starts at 0 */
};
static const uint8_t increase_entries[] = {
    1, 0, 0, 0, 0, 0, 0, 0,                      /* mark */
    0x00, 0x00, 0x00, 2, 0, 0, 35, 0, 3, 0, 0,   /* the oldest record of 6F39 */
    0x00, 3, 0, 0, 73, 0, 1, 0, 0,               /* the place of its newest */
};

/* A third script, and its 29 bytes of the journal: record 2 of 6F3A is at 17 + 4 = 21,
 * byte 10 of entry 3 at 58. */
static const uint8_t rename_and_close[] = {
    0x00, 0xA4, 0x08, 0x0C, 0x04, 0x7F, 0x10, 0x6F, 0x3A, /* SELECT 7F10 6F3A */
    0x00, 0xDC, 0x02, 0x04, 0x04, 0x4E, 0x45, 0x57, 0x21, /* UPDATE RECORD 2: 4E455721 */
    0x00, 0x04, 0x00, 0x00, 0x00,                         /* DEACTIVATE */
    0x00, 0xB2, 0x02, 0x04, 0x00,                         /* READ RECORD 2: refused now */
};
static const uint8_t rename_and_close_entries[] = {
    1, 0, 0, 0, 0, 0, 0, 0,                            /* mark */
    0xFF, 0xFF, 0xFF, 0xFF, 2, 0, 0, 21, 0, 4, 0, 0,   /* record 2 of 6F3A */
    RFM_STATE_ACTIVATED, 3, 0, 0, 58, 0, 1, 0, 0,      /* its state */
};

/* Appends a script's entries to a journal made by hand. */
static void put_on_trial(struct rfm_journal *journal, const uint8_t *entries, size_t length)
{
    const uint32_t used = rfm_used(journal);

    memcpy(journal->entries + used, entries, length);
    journal->used[0] = (uint8_t)((used + length) >> 8);
    journal->used[1] = (uint8_t)(used + length);
    journal->on_trial++;
}

/* Holds every byte of the card to one made by hand. */
static void check_card(const struct memories *by_hand)
{
    check(memcmp(worked.table, by_hand->table, sizeof worked.table) == 0, "  table as by hand");
    check(memcmp(worked.files, by_hand->files, sizeof worked.files) == 0, "  files as by hand");
    check(memcmp(&worked.journal, &by_hand->journal, sizeof worked.journal) == 0,
          "  journal as by hand");
}

int main(void)
{
    fill_files();
    struct memories by_hand = worked;

    run("first script: 6F46 gets 0141", update, sizeof update, 3, "039000");
    by_hand.files[0] = 0x01;
    by_hand.files[1] = 0x41;
    put_on_trial(&by_hand.journal, update_entries, sizeof update_entries);
    show_journal(18, 1);
    check_card(&by_hand);

    run("second script: 6F39 goes up by 5", increase, sizeof increase, 3, "039000000005000005");
    by_hand.files[35 + 2] = 0x05;
    by_hand.table[4].newest = 2;
    put_on_trial(&by_hand.journal, increase_entries, sizeof increase_entries);
    show_journal(18 + 28, 2);
    check_card(&by_hand);

    const struct memories two_on_trial = by_hand;
    run("third script: 6F3A gets a new record 2 and is deactivated, too early",
        rename_and_close, sizeof rename_and_close, 4, "046984");
    memcpy(by_hand.files + 21, "NEW!", 4);
    by_hand.table[3].state = RFM_STATE_DEACTIVATED;
    put_on_trial(&by_hand.journal, rename_and_close_entries, sizeof rename_and_close_entries);
    show_journal(18 + 28 + 29, 3);
    check_card(&by_hand);

    check(rfm_card_take_back(&card).number == RFM_DONE, "third script taken back");
    show_journal(18 + 28, 2);
    check_card(&two_on_trial);

    check(rfm_card_confirm(&card).number == RFM_DONE, "first and second script confirmed");
    by_hand = two_on_trial;
    memset(&by_hand.journal, 0, sizeof by_hand.journal);
    show_journal(0, 0);
    check_card(&by_hand);
    return status;
}

/* Says what Osmocom's libosmosim makes of commands and their answers. For each command in the lines of tools/capture on
 * standard input it prints the command's case, what its status word is (ok, warning, error, or none where its table
 * lacks it), and the FCP, where the data are one:
 *
 *   4|ok|linear fixed 6F3A, activated, 12 bytes, 3 records of 4
 *
 * libosmosim has case and word in its tables, and takes the FCP apart by its own list of tags. It has no call for the
 * bits of a file descriptor and of a life cycle state; they are read here, as clauses 11.1.1.4.3 and 11.1.1.4.9 of
 * TS 102 221 have them. */
#include <stdbool.h>
#include <stdio.h>
#include <stdlib.h>
#include <string.h>

#include <osmocom/gsm/tlv.h>
#include <osmocom/sim/class_tables.h>
#include <osmocom/sim/sim.h>

/* In the library and in none of its headers; its own osmo-sim-test declares it so too. */
struct osim_card_profile *osim_cprof_uicc(void *context, bool with_gsm_files);

enum { MOST_BYTES = 1024 };

/* Reads hex digits after a name and returns the number of bytes. */
static int read_hex(const char *line, const char *name, uint8_t *to)
{
    const char *at = strstr(line, name);
    int length = 0;
    unsigned byte;

    if (at == NULL) {
        fprintf(stderr, "osmocom: no %s in: %s", name, line);
        exit(1);
    }
    for (at += strlen(name); length < MOST_BYTES && sscanf(at, "%2x", &byte) == 1 && *at != ' '; at += 2)
        to[length++] = (uint8_t)byte;
    return length;
}

/* Returns a TLV's value as a number; -1 where it is not there with this length. */
static int number_of(const struct tlv_parsed *parts, uint8_t tag, int length)
{
    const uint8_t *value = TLVP_VAL(parts, tag);

    if (!TLVP_PRESENT(parts, tag) || TLVP_LEN(parts, tag) != length)
        return -1;
    return length == 1 ? value[0] : value[0] << 8 | value[1];
}

/* Returns the kind of file that a descriptor byte names: bit 7 is set for a shareable file, bits 6 to 4 are 111 for a
 * directory and 000 for a working EF, bits 3 to 1 are the EF's structure. */
static const char *kind_of(uint8_t descriptor)
{
    enum { SHAREABLE = 0x40, STRUCTURE = 0x07, DIRECTORY = 0x38 };
    static const char *const structures[STRUCTURE + 1] = {
        "unknown", "transparent", "linear fixed", "unknown", "unknown", "unknown", "cyclic", "unknown"};

    if (descriptor == (SHAREABLE | DIRECTORY))
        return "directory";
    return (descriptor & ~STRUCTURE) == SHAREABLE ? structures[descriptor & STRUCTURE] : "unknown";
}

/* Prints an FCP in words: -1 or unknown for a TLV that is not there, and how many there are if there are others too. */
static void print_fcp(const uint8_t *data, int length)
{
    struct tlv_parsed template, parts;

    if (tlv_parse(&template, &ts102221_fcp_tlv_def, data, length, 0, 0) != 1 ||
        !TLVP_PRESENT(&template, UICC_FCP_T_FCP)) {
        printf("no FCP template");
        return;
    }
    const int count = tlv_parse(&parts, &ts102221_fcp_tlv_def, TLVP_VAL(&template, UICC_FCP_T_FCP),
                                TLVP_LEN(&template, UICC_FCP_T_FCP), 0, 0);
    const uint8_t *descriptor = TLVP_VAL(&parts, UICC_FCP_T_FILE_DESC);
    const int descriptor_length = descriptor == NULL ? 0 : TLVP_LEN(&parts, UICC_FCP_T_FILE_DESC);
    if ((descriptor_length != 2 && descriptor_length != 5) || descriptor[1] != 0x21) {
        printf("no file descriptor");
        return;
    }
    const int state = number_of(&parts, UICC_FCP_T_LIFEC_STS, 1), size = number_of(&parts, UICC_FCP_T_FILE_SIZE, 2);
    printf("%s %04X, %s", kind_of(descriptor[0]), (unsigned)number_of(&parts, UICC_FCP_T_FILE_ID, 2),
           state == 0x05 ? "activated" : state == 0x04 ? "deactivated" : "unknown state");
    if (size >= 0)
        printf(", %d bytes", size);
    if (descriptor_length == 5)
        printf(", %d records of %d", descriptor[4], descriptor[2] << 8 | descriptor[3]);
    if (count != (size >= 0 ? 4 : 3))
        printf(", %d TLVs", count);
}

int main(void)
{
    static const char *const classes[] = {
        [SW_CLS_NONE] = "none", [SW_CLS_OK] = "ok", [SW_CLS_POSTP] = "postponed", [SW_CLS_WARN] = "warning",
        [SW_CLS_ERROR] = "error"};
    static char line[8 * MOST_BYTES];
    const struct osim_card_profile *profile = osim_cprof_uicc(NULL, false);

    while (fgets(line, sizeof line, stdin) != NULL) {
        uint8_t command[MOST_BYTES] = {0}, data[MOST_BYTES], status[MOST_BYTES];
        read_hex(line, "command=", command);
        const int length = read_hex(line, "data=", data);
        read_hex(line, "status=", status);
        const struct osim_card_sw *word = osim_cprof_find_sw(profile, (uint16_t)(status[0] << 8 | status[1]));
        printf("%d|%s|", osim_determine_apdu_case(&osim_uicc_cic_profile, command),
               classes[word == NULL ? SW_CLS_NONE : word->class]);
        if (length > 0 && data[0] == UICC_FCP_T_FCP)
            print_fcp(data, length);
        printf("\n");
    }
    return 0;
}

/* The sizes that the header names against those that the functions answer. */
#include "check.h"

void test_sizes(void)
{
    static struct host host;
    uint8_t none[1];
    check("a table of no chips is empty", tk_table_size(0) == 0);
    check("a table of one chip is a record", tk_table_size(1) == TK_RECORD_SIZE);
    check("a table of 16 chips", tk_table_size(TK_MOST_CHIPS) == TK_MOST_CHIPS * TK_RECORD_SIZE);
    check("17 chips count as 16", tk_table_size(17) == TK_MOST_CHIPS * TK_RECORD_SIZE);
    check("the most chips count as 16", tk_table_size(SIZE_MAX) == TK_MOST_CHIPS * TK_RECORD_SIZE);
    check("a number that wraps counts as 16", tk_table_size(SIZE_MAX / TK_RECORD_SIZE + 2) == TK_MOST_CHIPS * TK_RECORD_SIZE);
    check("no chips ask no images", tk_images_size(none, 0) == 0);
    check("no chips ask no pads", tk_pads_size(none, 0) == 0);
    set_up(&host, "121");
    check("images by memories", tk_images_size(host.table, host.table_size) == 2 * TK_IMAGE_SIZE);
    check("pads by memories", tk_pads_size(host.table, host.table_size) == 2 * TK_PAD_SIZE);
    check("images of the first chip", tk_images_size(host.table, TK_RECORD_SIZE) == TK_IMAGE_SIZE);
    check("pads of the first chip", tk_pads_size(host.table, TK_RECORD_SIZE) == TK_PAD_SIZE);
    check("a switch asks nothing", tk_images_size(host.table + TK_RECORD_SIZE, TK_RECORD_SIZE) == 0);
    check("parts of records ask nothing", tk_images_size(host.table, host.table_size - 1) == 0);
    check("parts of records ask no pads", tk_pads_size(host.table, TK_RECORD_SIZE + 1) == 0);
    host.table[TK_RECORD_SIZE - 1] = 1;
    check("bytes that are no record ask nothing", tk_images_size(host.table, host.table_size) == 0);
    check("bytes that are no record ask no pads", tk_pads_size(host.table, host.table_size) == 0);
    set_up(&host, "1111111111111111");
    check("images of 16 memories", tk_images_size(host.table, host.table_size) == TK_MOST_IMAGES_SIZE);
    check("pads of 16 memories", tk_pads_size(host.table, host.table_size) == TK_MOST_PADS_SIZE);
    static uint8_t many[17 * TK_RECORD_SIZE];
    for (size_t i = 0; i < 17; i++)
        memcpy(many + i * TK_RECORD_SIZE, host.table, TK_RECORD_SIZE);
    check("17 records ask nothing", tk_images_size(many, sizeof many) == 0 && tk_pads_size(many, sizeof many) == 0);
}

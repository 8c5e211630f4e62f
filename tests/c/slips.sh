#!/usr/bin/env bash
# Puts one wrong version of the plain model after another in the library's place, and shows what catches each.
# Further flags go to the model, for example --seed 7.
set -u -o pipefail
here=$(dirname -- "$(readlink -f -- "${BASH_SOURCE[0]}")")
top=$(dirname -- "$(dirname -- "$here")")
work=$top/target/c/slip

# file | sed command | what is wrong
slips=(
    'range.c|s/ \&\& rest_is_zero(chip);/;/|the unused bytes of a record are not looked at'
    'range.c|s/chip->c <= shape->c \&\& //|c is not looked at where a step does not use it'
    'range.c|s/chip->rc <= 1 \&\& //|RC may be any byte'
    'range.c|s/ \&\& (chip->es \& BS) == 0//|E/S bit 6 is not looked at'
    'range.c|s/(shape->parts \& part_of(chip->kind)) != 0/shape->parts != 0 \&\& part_of(chip->kind) != 0/|a step of another kind is taken'
    'range.c|s/\[READ_ROM\] = {ANY, 0, 63/[READ_ROM] = {ANY, 0, 64/|Read ROM has a place 64'
    'range.c|s/\[READ_DATA\] = {MEMORY, LAST_ADDRESS/[READ_DATA] = {MEMORY, LAST_ADDRESS + 1/|Read Memory may stand past the last address'
    'range.c|s/    if (chip->step == COPIED .*/    if (0)/|a flag of 2 is a record'
    'plain.c|s/    if (answer >= 0)$/    if (answer >= 0 \|\| (table[0] ^= 1))/|a refused event changes a byte of the table'
    'plain.c|s/^        return -TK_NO_SUCH_EVENT;/        line->pads[0] ^= line->count > 0 \&\& line->chips[0].kind == TK_DS28EC20; return -TK_NO_SUCH_EVENT;/|a refused event changes a byte of a scratchpad'
    'plain.c|s/    switch (event) {/    switch ((uint8_t)event) {/|the event is cut to a byte'
    'plain.c|s/chip >= line->count/(chip \&= 0xFF) >= line->count/|the chip is cut to a byte'
    'plain.c|s/ || levels > 3)/)/|levels over 3 are taken'
    'plain.c|s/chip_slot(&line->chips\[i\], value, image, pad)/chip_slot(\&line->chips[i], host, image, pad)/|a receiving chip takes the bit of the host'
    'plain.c|s/    unsigned value = host;/    unsigned value = host | 1;/|the host is not heard in a slot'
    'plain.c|s/pads_size == found \* TK_PAD_SIZE/(pads_size == found * TK_PAD_SIZE || found > 0)/|the size of the scratchpads is not looked at'
    'plain.c|s/images_size == found \* TK_IMAGE_SIZE/images_size >= found * TK_IMAGE_SIZE/|images may be too large'
    'plain.c|s/table_size > sizeof line->chips/table_size > sizeof line->chips + TK_RECORD_SIZE/;s/memcpy(line->chips, table, table_size);/memcpy(line->chips, table, table_size > sizeof line->chips ? sizeof line->chips : table_size);/;s/line->count = table_size/line->count = table_size > sizeof line->chips ? TK_MOST_CHIPS : table_size/|17 records are taken as 16'
    'plain.c|s/table_size % TK_RECORD_SIZE != 0 || table_size > sizeof/table_size > sizeof/|a part of a record is passed over'
    'plain.c|s/    memcpy(table, chips, count \* TK_RECORD_SIZE);/    memset(table, 0, table_size); memcpy(table, chips, count * TK_RECORD_SIZE);/|set-up clears the places after its chips'
    'plain.c|s/^            \*offset = at;/            *offset = at + 2;/|the offset of a refused card is that of the kind'
    'plain.c|s/    if (left < 4)/    if (left < 12)/|a cut record is refused before its kind is looked at'
    'plain.c|s/\.es = 0x20, /.es = 0x00, /|set-up leaves PF 0'
    'plain.c|s/^    answer = plain_line_event(/    if (*(volatile uint8_t *)(table + table_size) == 7) return 0;\n&/|a byte past the table is read'
    'plain.c|s/^    answer = plain_line_event(/    table[-1] ^= 1;\n&/|a byte before the table is written'
    'plain.c|s/slots > [A-Z_]*MOST_SLOTS || //|a run of 65,536 slots is taken'
    'plain.c|s/^    if (slots > [A-Z_]*MOST_SLOTS/    slots = (uint32_t)slots;\n&/|the slots of a run are cut to 32 bits'
    'plain.c|s/bits_size != (slots + 7) . 8/bits_size < (slots + 7) \/ 8/|a run may have too many bits, and as much room'
    'plain.c|s/answers_size != bits_size/answers_size < bits_size/|a run may have too much room for answers'
    'plain.c|s/^    int32_t refusal = plain_line_take(/    if (bits_size != answers_size)\n        return -TK_WRONG_SIZE;\n&/|a run gives refusal 5 before 8'
    'plain.c|s/^    int32_t refusal = plain_line_take(/    memset(answers, 0, answers_size);\n&/|a refused run clears its answers'
    'plain.c|s/bits >> i & 1, 0, 0) << i/bits >> (7 - i) \& 1, 0, 0) << (7 - i)/|a run begins with the highest bit of a byte'
    'plain.c|s/i < slots \&\& i < 8/slots > 0 \&\& i < 8/|a run goes on to the end of its last byte'
    'plain.c|s/    return (uint8_t)values;/    return (uint8_t)(values | (slots < 8 ? 0xFFu << slots : 0));/|answers past a run are 1'
    'plain.c|s/        answers\[at\] = byte_of_slots(.*/        answers[at] = byte_of_slots(\&line, bits[at], slots - 8 * at) | (slots - 8 * at < 8 ? answers[at] \& 0xFFu << slots % 8 : 0);/|answers past a run stay as they were'
    'plain.c|s/^    memcpy(table, line.chips, table_size);/    if (slots % 8 == 0)\n    &/|a run that ends inside a byte leaves the table'
    'plain.c|s/^    return (int32_t)slots;/    return (int32_t)(8 * bits_size);/|a run answers the slots of whole bytes'
    'plain.c|s/^    for (size_t at = 0; at < bits_size; at++)/    if (*(const volatile uint8_t *)(bits + bits_size) == 7) return 0;\n&/|a byte past the bits of a run is read'
    'plain.c|s/^    for (size_t at = 0; at < bits_size; at++)/    answers[-1] ^= 1;\n&/|a byte before the answers of a run is written'
    'plain.c|s/^    for (size_t at = 0; at < bits_size; at++)/    for (size_t i = 0; i < line.count; i++)\n        if (line.chips[i].step == WAITING)\n            line.count = i;\n&/|chips behind one that waits are left out of a run'
    'plain.c|s/== MEMORY)$/== MEMORY \&\& line->chips[i].step != WAITING)/|the image of a chip that waits is not passed over'
    'chip.c|s/chip->b == 2 ? 1 : bit_at/chip->b == 2 ? 0 : bit_at/|a chip that takes a bit of Search ROM pulls the line low'
    'chip.c|s/        return ~(unsigned)chip->w >>/        return (unsigned)chip->w >>/|the CRC-16 is not inverted'
    'chip.c|s/ \&\& chip->b > 0)/)/|a reset between data bytes sets PF'
    'chip.c|s/chip->step == WRITE_ADDRESS \&\&/0 \&\&/|a short address leaves PF'
    'chip.c|s/chip->step == WRITE_ADDRESS \&\&/& chip->a > 0 \&\&/|a reset before the first address bit leaves PF'
    'chip.c|s/chip->step == WRITE_ADDRESS \&\&/& chip->a % 8 > 0 \&\&/|only an address cut inside a byte sets PF'
    'chip.c|s/chip->step == WRITE_ADDRESS \&\&/& chip->a < 9 \&\&/|a reset inside TA2 leaves PF'
    'chip.c|/step == WRITE_ADDRESS/{n;s/$/\n    if (chip->step == WRITE_ADDRESS \&\& chip->a > 7)\n        chip->t = (chip->t \& 0xFF00) | (chip->w >> (16 - chip->a) \& 0xFF);/}|the TA1 of a short address is taken into T'
    'chip.c|/step == WRITE_ADDRESS/{n;s/|= PF/= (chip->es \& AA) | PF | chip->t % TK_PAD_SIZE/}|a short address sets E to T mod 32'
    'chip.c|/step == WRITE_ADDRESS/{n;s/|= PF/= (chip->es \& ~AA) | PF/}|a short address clears AA'
    'chip.c|/step == WRITE_ADDRESS/{n;s/|= PF/^= PF/}|a short address clears a PF of 1'
    'memory.c|s/        begin(chip, WRITE_ADDRESS);/&\n        chip->es |= PF;/|0Fh sets PF at once, and a whole address clears it'
    'chip.c|s/        chip->es = PF;/        chip->es = PF | (chip->step == WRITE_ADDRESS ? chip->es : 0);/|power on at a short address leaves E and AA'
    'chip.c|s/WRITE_DATA \&\& chip->b > 0/WRITE_DATA \&\& (chip->b > 0 || chip->a == chip->t % TK_PAD_SIZE)/|a reset straight after the 16th address bit sets PF'
    'chip.c|s/    if (chip->step == WRITE_ADDRESS/    if ((chip->step == WRITE_ADDRESS || (chip->step == FUNCTION_COMMAND \&\& chip->a > 0))/|a reset inside the command byte sets PF'
    'chip.c|s/    if (chip->step == WRITE_ADDRESS/    if ((chip->step == WRITE_ADDRESS || chip->step == COPY_ADDRESS)/|a cut in the address of Copy Scratchpad sets PF'
    'chip.c|s/    if (chip->step == WRITE_ADDRESS/    if ((chip->step == WRITE_ADDRESS || chip->step == READ_ADDRESS)/|a cut in the address of Read Memory sets PF'
    'chip.c|s/^    chip->rc = 0;$/    chip->rc = chip->rc;/|power on keeps RC'
    'chip.c|s/        chip->latches = 3;/        chip->latches = chip->levels = 3;/|power on sets the outside levels'
    'chip.c|s/    begin(chip, ROM_COMMAND);/    begin(chip, ROM_COMMAND); chip->rc = 0;/|a reset clears RC'
    'chip.c|/case 0xF0:/{n;s/^/        if (chip->rc) {\n            begin(chip, WAITING);\n            break;\n        }\n/}|F0h is not answered while RC is 1'
    'chip.c|/case 0xF0:/{n;s/^/        if (chip->levels != 3 \&\& part_of(chip->kind) == SWITCH) {\n            begin(chip, WAITING);\n            break;\n        }\n/}|F0h is not answered by a switch with a pin held low'
    'chip.c|s/    begin(chip, ROM_COMMAND);/    begin(chip, chip->step == COPY_END ? WAITING : ROM_COMMAND);/|a reset inside the E/S of a copy is missed'
    'memory.c|s/ || chip->es \& PF//|PF does not stop a copy'
    'memory.c|s/last = chip->es \& 0x1F/last = 31/|a copy goes on past E'
    'memory.c|s/        after\[i\] = ruled(image, page + i, pad\[i\]);/        after[i] = pad[i];/|a copy trusts the scratchpad'
    'memory.c|s/^    chip->es |= AA;/    if (is_closed(image, page)) { begin(chip, MEMORY_ONES); return; }\n&/|a page is judged by the bytes that the same copy has just set'
    'memory.c|s/    chip->w = crc_after(chip->w, chip->c);/    chip->w = crc_after(chip->w, pad[chip->a]);/|the CRC-16 is taken after the rule of a byte'
    'memory.c|s/    chip->t = t;/    chip->t = t \& 0x0FFF;/|T loses its top four bits'
    'parts.h|s/    chip->a = chip->b = chip->c = 0;/    chip->a = chip->b = 0;/|a byte that a step does not use keeps what it held'
    'parts.h|s/    chip->b = (uint8_t)(chip->b >> 1 | value << 7);/    if (chip->a == 0) chip->b = 0;\n&/|a register is cleared before its first bit'
    'switch.c|s/pins = chip->latches \& chip->levels/pins = chip->latches/|a pin is the latch alone'
    'switch.c|s/    chip->latches = byte \& 3;/    chip->latches = byte \& 3; chip->t = 0;/|a switch clears T, which it has no use for'
    'search.c|s/    \*resets = \*slots = 0;/    *resets = *slots = refusal < 0;/|a search that is refused counts a reset'
    'search.c|s/        list\[answer++\] = search.code;/        list[answer++] = search.code; if ((size_t)answer < places) list[answer] = 0;/|the place after the last code is cleared'
    'search.c|s/(size_t)answer == places \&\& answer > 0/(size_t)answer == places/|no places: refused before the reset'
    'search.c|s/    memcpy(table, line.chips, table_size);/    if (answer >= 0) memcpy(table, line.chips, table_size);/|refusal 4 leaves the line as it was before the passes'
    'search.c|s/    struct search search = {.line = \&line, .branch = -1};/    static struct search search = {.branch = -1};\n    search.line = \&line, search.slots = 0;/|a search goes on where one refused by 4 has ended'
)

# Is it the slip that fails, and not the plain model or the tests?
"$here/run" --plain "$top/tools/speed" --lines 3000 --stop 1 "$@" >/dev/null 2>&1 || { echo "the plain model fails without a slip"; exit 1; }

total=0 caught=0
for slip in "${slips[@]}"; do
    file=${slip%%|*}
    text=${slip##*|}
    edit=${slip#"$file|"}
    edit=${edit%"|$text"}
    total=$((total + 1))
    rm -rf -- "$work" && mkdir -p -- "$work" && cp -- "$top"/tools/speed/*.[ch] "$work" || exit 1
    sed -i -e "$edit" "$work/$file" || exit 1
    if cmp -s "$work/$file" "$top/tools/speed/$file"; then
        by='THE EDIT CHANGES NOTHING'
    elif output=$("$here/run" --plain "$work" --lines 3000 --stop 1 "$@" 2>&1); then
        by='NOT CAUGHT'
    elif ! grep -q ' passed, ' <<<"$output" || grep -q 'not compile' <<<"$output"; then
        by='DOES NOT COMPILE'
    else
        by=$(grep -m 1 -e '^WRONG' -e '^FAILED' <<<"$output")
        by=${by:+$by; }$(grep -m 1 -e '^DIFFERENCE' <<<"$output")
        if [ -n "$by" ]; then caught=$((caught + 1)); else by='FAILS WITHOUT A DIFFERENCE'; fi
    fi
    printf '%-78s %s\n' "$text" "$by"
done
echo "$caught of $total wrong versions caught"
[ "$caught" -eq "$total" ]

/* Saves guests to files and loads them from there. */
#include "images.h"

#include <errno.h>
#include <stdlib.h>
#include <string.h>

enum { LONGEST_LINE = 255, MOST = 4 << 20 /* in bytes, more than the size of any image */ };

/* The text of a reply about an error number or a file. */
static void reply_by_number(FILE *replies, uint32_t number)
{
    fputs(number ? "host: refused " : "host: ok", replies);
    if (number)
        write_refusal(replies, number);
    fputc('\n', replies);
}

static void reply_by_error(FILE *replies, const char *path)
{
    fprintf(replies, "host: %s: %s\n", path, strerror(errno));
}

/* Writes bytes to a file. If this fails, the file is too short to be loaded. */
static bool write_file(const char *path, const uint8_t *bytes, size_t size)
{
    FILE *file = fopen(path, "wb");
    bool is_written = file && fwrite(bytes, 1, size, file) == size;

    return file && fclose(file) == 0 && is_written;
}

static bool read_file(const char *path, uint8_t *bytes, size_t room, size_t *size)
{
    FILE *file = fopen(path, "rb");
    bool is_read = file != NULL;

    if (file) {
        *size = fread(bytes, 1, room, file);
        is_read = !ferror(file);
        fclose(file);
    }
    return is_read;
}

/* Saves a guest. Returns whether it was saved. */
static bool save(struct board *board, size_t guest, const char *path, uint8_t *image, FILE *replies)
{
    size_t size = 0;
    uint32_t number = pciguest_save(&board->machine, guest, image, MOST, &size);
    bool is_saved = number == 0 && write_file(path, image, size);

    if (number || is_saved)
        reply_by_number(replies, number);
    else
        reply_by_error(replies, path);
    return is_saved;
}

static bool load(struct board *board, size_t guest, const char *path, uint8_t *image, FILE *replies)
{
    size_t size = 0;
    uint32_t number;

    if (!read_file(path, image, MOST, &size)) {
        reply_by_error(replies, path);
        return false;
    }
    number = pciguest_load(&board->machine, guest, image, size);
    reply_by_number(replies, number);
    return number == 0;
}

bool image_event(struct board *board, const char *line, size_t length, FILE *replies)
{
    char text[LONGEST_LINE + 1] = {0}, verb[5], name[PCIGUEST_GUEST_NAME + 1], path[LONGEST_LINE + 1];
    size_t guest = 0;
    uint32_t number;
    uint8_t *image;
    bool is_save, is_done;

    memcpy(text, line, length < LONGEST_LINE ? length : LONGEST_LINE);
    if (sscanf(text, " host %4s %16s %255s", verb, name, path) != 3)
        return false;
    is_save = strcmp(verb, "save") == 0;
    if (!is_save && strcmp(verb, "load") != 0)
        return false;
    number = pciguest_guest(&board->machine, name, strlen(name), &guest);
    image = number ? NULL : calloc(1, MOST);
    if (number)
        reply_by_number(replies, number);
    else if (!image)
        reply_by_number(replies, PCIGUEST_OUT_OF_MEMORY);
    is_done = image && (is_save ? save : load)(board, guest, path, image, replies);
    free(image);
    fflush(replies);
    if (is_done && board->log)
        fprintf(board->log, "#%s %s %s\n", verb, name, path);
    return true;
}

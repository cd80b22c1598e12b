/*
 * Reads path text into path bytes, prints them, writes them back as text, and shows
 * what refusals look like.
 */
#include "example.h"

static uint8_t path_bytes[BURGEE_PATH_BYTES_MAX];
static uint8_t path_text[BURGEE_PATH_TEXT_MAX];

static void print_hex(const uint8_t *bytes, size_t len)
{
    for (size_t i = 0; i < len; i++) {
        printf("%02x", bytes[i]);
    }
}

/* Into this much room, and back. */
static void show(const char *text, size_t room)
{
    printf("text  %s\n", text);

    uint64_t read = burgee_path_read(SLICE(text), path_bytes, room);
    size_t bytes_len = burgee_answer_length(read);
    printf("bytes ");
    if (!print_refusal(read)) {
        print_hex(path_bytes, bytes_len);

        uint64_t written = burgee_path_write(path_bytes, bytes_len, path_text, sizeof path_text);
        printf("\nback  ");
        if (!print_refusal(written)) {
            printf("%.*s", (int)burgee_answer_length(written), (const char *)path_text);
        }
    }
    printf("\n\n");
}

int main(void)
{
    show("/", sizeof path_bytes);
    show("/interfaces/interface[name=et-1/0/1]/state", sizeof path_bytes);
    show("/a[k=left\\]right\\\\][l=*]", sizeof path_bytes);
    show("/interfaces/", sizeof path_bytes);
    show("/a[k=1][k=2]", sizeof path_bytes);
    show("/a/b", 7);
    show("/a/b", 6);
    return 0;
}

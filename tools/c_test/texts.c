#include "texts.h"

uint8_t *room_for_text(void)
{
    uint8_t bytes[400];
    return (uint8_t *)lent(memset(bytes, 9, sizeof bytes), sizeof bytes);
}

int begins(const uint8_t *room, const char *text)
{
    return same(room, text, strlen(text)) && room[strlen(text)] == 9;
}

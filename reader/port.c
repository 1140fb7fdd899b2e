#define _DEFAULT_SOURCE /* IFF_UP */
#include "port.h"

#include <ifaddrs.h>
#include <net/if.h>
#include <stdbool.h>
#include <stdio.h>
#include <string.h>

#include "say.h"

enum { LISTENS = 0x0A, LONGEST_ADDRESS = 32 }; /* state of a socket; hex digits */

/* As /proc/net has it, in hex, with each four bytes the other way round, since the program is for x86-64. */
static bool is_loopback(const char *address)
{
    static const char one[] = "00000000000000000000000001000000", mapped[] = "0000000000000000FFFF0000";
    size_t len = strlen(address);

    if (len == LONGEST_ADDRESS && strncmp(address, mapped, strlen(mapped)) != 0)
        return strcmp(address, one) == 0;
    return len >= 2 && strcmp(address + len - 2, "7F") == 0; /* IPv4, and IPv4 written as IPv6 */
}

static bool opens_to_others(const char *line, uint16_t port)
{
    char address[LONGEST_ADDRESS + 1];
    unsigned at, state;

    return sscanf(line, " %*d: %32[0-9A-F]:%X %*[0-9A-F]:%*X %X", address, &at, &state) == 3
        && at == port && state == LISTENS && !is_loopback(address);
}

/* sockets: the list of them, one a line. */
static bool listens_to_others(const char *sockets, uint16_t port)
{
    char line[512];
    bool found = false;
    FILE *list = fopen(sockets, "r");

    if (list == NULL)
        return false; /* as where there is no IPv6 */
    while (!found && fgets(line, sizeof line, list) != NULL)
        found = opens_to_others(line, port);
    fclose(list);
    return found;
}

/* Where that cannot be told it is taken to be. */
static bool is_on_a_network(void)
{
    struct ifaddrs *all;
    bool found = false;

    if (getifaddrs(&all) != 0)
        return true;
    for (const struct ifaddrs *one = all; one != NULL && !found; one = one->ifa_next)
        found = (one->ifa_flags & IFF_UP) != 0 && (one->ifa_flags & IFF_LOOPBACK) == 0;
    freeifaddrs(all);
    return found;
}

void warn_of_open_port(uint16_t port)
{
    if ((listens_to_others("/proc/net/tcp", port) || listens_to_others("/proc/net/tcp6", port)) && is_on_a_network())
        say("warning: port %u is open to other machines too, and whoever connects to it first is the card, and is given the PINs; "
            "docs/READER.md says more", (unsigned)port);
}

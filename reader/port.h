/* Who can reach the port on which vpcd waits for a card. */
#ifndef READER_PORT_H
#define READER_PORT_H

#include <stdint.h>

/*
 * Says so where other machines can connect to that port: somebody listens there on another address than those of the loopback, and
 * there is an interface but the loopback that is up. A firewall is not seen.
 */
void warn_of_open_port(uint16_t port);

#endif

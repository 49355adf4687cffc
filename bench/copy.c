/* tuned.c once more under other names: what it takes against tuned.c itself shows how exact a ratio is. */
#define tuned_usb_read copy_usb_read
#define tuned_usb_write copy_usb_write
#define tuned_flexray_read copy_flexray_read
#define tuned_flexray_write copy_flexray_write
#define tuned_udp_read copy_udp_read
#define tuned_udp_write copy_udp_write

#include "tuned.c"

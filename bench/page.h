/* The page of a report, page.html, as it is in the program: the run stands where the marker is. */
#ifndef PAGE_H
#define PAGE_H

#define PAGE_MARKER "@RUN@"

extern const char page[], page_end[];

#endif

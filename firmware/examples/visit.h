/* A visit of the chlorine recorder: raw counts of four loops times calibration weights give two readings a loop. recorder.c runs it as a Linux
 * program, bare.c without an operating system. A slip is a mistake of the firmware that most machines would not show. */
#ifndef VISIT_H
#define VISIT_H

enum slip {
    NO_SLIP,
    MISSING, /* the counts of loop four are not loaded into the unit */
    OVER,    /* the readings are stored over the counts */
    DRIFT    /* the drift of the sensors is taken off where the counts lie */
};

/* Makes the visit and hands the sheet out, a line at a time. */
void visit(enum slip slip, void (*put)(const char *text));

#endif

/* Feet are worked out only from the matching unit (RULES 'Units'). As it stands this compiles; with either macro defined a function is given
   another unit's altitude, and a C or C++ compiler has to refuse it. */
#include "gdl90.h"

#ifdef REPORT_AS_GEOMETRIC
#define GEOMETRIC report.altitude
#else
#define GEOMETRIC geometric.altitude
#endif

#ifdef GEOMETRIC_AS_TERRAIN
#define TERRAIN geometric.altitude
#else
#define TERRAIN height.height
#endif

int32_t feet(struct gdl90_report report, struct gdl90_geometric geometric, struct gdl90_height height)
{
    return gdl90_pressure_feet(report.altitude) + gdl90_geometric_feet(GEOMETRIC) + gdl90_terrain_feet(TERRAIN);
}

//! Records by their figures, right or wrong.

use reference::humidity::Humidity;
use reference::pressure::Tendency;
use reference::watchfile::{Body, Record};
use reference::wind::Wind;

pub fn pressure(minute: u32, tenths: i32) -> Record {
    Record {
        minute,
        body: Body::Pressure(tenths),
    }
}

pub fn tendency(minute: u32, change: i32, absent: i32) -> Record {
    Record {
        minute,
        body: Body::Tendency(Tendency { change, absent }),
    }
}

pub fn wind(minute: u32, speed: i32, direction: i32) -> Record {
    Record {
        minute,
        body: Body::Wind(Wind { speed, direction }),
    }
}

pub fn humidity(minute: u32, [e, saturation, deficit, relative, dew]: [i32; 5]) -> Record {
    Record {
        minute,
        body: Body::Humidity(Humidity {
            e,
            saturation,
            deficit,
            relative,
            dew,
        }),
    }
}

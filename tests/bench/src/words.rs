//! Sentences of ordinary words, such as manuals have them.

use reference::random::Random;

/// Words of manuals.
const WORDS: &str = "
    a about above access adapter add adjust after again air alarm alcohol align all allow also always an and
    another any appears apply are arrow as at attach authorized automatic back bag bar base battery be bearing
    because before begin below belt between blade bleed block blow blower board bolt both bottom box bracket
    brake bridge bring brush burner button by cable calibrate can cap card care carefully case cause caution
    center chain change charge charger check circuit clamp clean cleaner clear clip clockwise close cloth code
    coil cold color compressor condition connect connection connector contact control cool coolant cord correct
    could cover crank current cut cycle cylinder damage damaged danger date deep detergent device diagram dial
    directly disconnect display do door down drain drive driver dry during dust each edge electric element
    empty enable end engine ensure enter equipment error every exhaust explode failure fan fasten faulty few
    field fill filter finger fire first fit fitting flame flow fluid follow following for force found frame
    free from front fuel full function fuse gas gasket gauge gear gently glove green grease ground guide hand
    handle hard has head heat heater high hold hole hood hose hot hours housing if ignition in indicator inlet
    insert inside inspect install installed instructions into is it keep key knob label lamp leak left lever
    lid lift light line liquid local lock loose loosen low lower lubricate machine main maintenance make manual
    mark maximum may mean measure menu metal meter minimum minute minutes mode more motor mount move must never
    new next no noise normal not note nozzle number nut of off oil on once one only open operate operation or
    other outlet over overheat oxygen pan panel part parts pedal pin pipe piston place plate plug port position
    power press pressure prevent procedure program properly protect pull pump push qualified radiator reach read
    red refer refill release remove repair repeat replace replacement reset return right rod rotate rubber safety
    screen screw screwdriver seal seat second secure see select sensor serial service set setting several shaft
    sharp should shut side signal skin slide slot slowly small socket solvent spare speed spring start stop
    storage supply support surface switch system tank temperature terminal test than that the then thermostat
    these this three through tighten time to tool top torque tray turn two under unit unplug until up upper use
    used using valve vent ventilation voltage wait warning wash water weight wheel when where while wire with
    within without wrench year yellow you your";

/// A sentence of so many bytes: words at random with blanks between them, the last one cut where it has to be.
pub fn sentence(random: &mut Random, len: usize) -> Vec<u8> {
    let words: Vec<&str> = WORDS.split_whitespace().collect();
    let mut sentence = Vec::with_capacity(len + 16);
    while sentence.len() < len {
        sentence.extend(random.one_of(&words).bytes());
        sentence.push(b' ');
    }
    sentence.truncate(len);
    sentence
}

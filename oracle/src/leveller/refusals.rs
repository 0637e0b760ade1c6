//! Calls that are refused: on every spoilt state, in both forms of a setting, and by two numbers whose order matters.
use super::{
    borders::QUICK,
    cases::good,
    rules::{Leveller, NAMES},
};
use crate::{
    calls::{Call, Drawn, List, Rules, Setting, number::single_bytes},
    limits::LONGEST_BLOCK,
    numbers::above,
};

fn typed(setting: &Setting) -> Call {
    Call::Set(setting.which, setting.value, setting.worked.clone())
}

fn named(setting: &Setting) -> Call {
    let name = Leveller::name(setting.which);
    Call::SetNamed(name, setting.value, setting.worked.clone())
}

/// Each call in each of its forms, with what it would accept and with what it would refuse.
pub fn every_call(list: &mut List<Leveller>) {
    let (right, wrong) = (single_bytes(&[0.5]), single_bytes(&[f32::NAN]));
    for (which, name) in NAMES.iter().enumerate() {
        for (value, worked) in [
            (good(which), &right),
            (f32::NAN, &right),
            (good(which), &wrong),
        ] {
            list.add(Call::Set(which as u32, value, worked.clone()));
            list.add(Call::SetNamed(
                name.as_bytes().into(),
                value,
                worked.clone(),
            ));
        }
        list.add(Call::Read(name.as_bytes().into()));
    }
    list.add(Call::Read(b"none".into()));
    list.add(Call::SetNamed(b"none".into(), 1.0, right));
    list.add(Call::Reset);
    for (samples, places) in [(vec![], 0), (vec![0.5], 1), (vec![0.5, f32::NAN], 2)] {
        list.add(Call::Block(samples, places));
    }
    list.add(Call::Block(vec![0.5], 2));
    list.add(Call::Tell);
}

/// Each setting at its limits and outside them, by number and by name.
pub fn both_forms(list: &mut List<Leveller>) {
    list.load(&QUICK);
    for (at, setting) in Leveller::at_the_limits().iter().enumerate() {
        list.add(typed(setting));
        list.add(named(setting));
        if at % 4 == 0 {
            list.add(Call::Tell);
        }
    }
}

/// Two refusals at once: 1 with 3 and with 4, 3 with 4, 7 with 6 and with 8, 8 with 6.
pub fn pairs(list: &mut List<Leveller>) {
    list.load(&Leveller {
        level: 0.5,
        ..QUICK
    });
    let wrong = single_bytes(&[f32::NAN]);
    for (which, name) in NAMES.iter().enumerate() {
        let near = [name.as_bytes(), b"s"].concat();
        let right = single_bytes(&[0.5]);
        list.add(Call::SetNamed(near.clone(), f32::NAN, right));
        list.add(Call::SetNamed(near, good(which), wrong.clone()));
        list.add(Call::SetNamed(
            name.as_bytes().into(),
            f32::NAN,
            wrong.clone(),
        ));
        list.add(Call::Set(which as u32, above(good(which)), wrong.clone()));
    }
    let long = LONGEST_BLOCK + 1;
    list.add(Call::Block(vec![f32::NAN; 2], 1));
    list.add(Call::Block(vec![0.5; long], 1));
    list.add(Call::Block(vec![f32::NAN; long], long));
    list.add(Call::Tell);
}

/// 9 with each of the others.
pub fn pairs_with_9(list: &mut List<Leveller>) {
    for spoilt in [
        Leveller {
            ratio: 3.0,
            ..QUICK
        },
        Leveller {
            level: above(64.0),
            ..QUICK
        },
        Leveller {
            level: f32::NAN,
            ..QUICK
        },
        Leveller { rate: 0.0, ..QUICK },
    ] {
        list.load(&spoilt);
        every_call(list);
    }
    let long = LONGEST_BLOCK + 1;
    list.add(Call::Block(vec![0.5; long], long));
}

/// Every kind of call on each spoilt state, and what it then holds.
pub fn spoilt(list: &mut List<Leveller>) {
    let state = Leveller {
        level: 0.5,
        ..QUICK
    };
    for (at, spoilt) in state.spoilt().iter().enumerate() {
        let settings = state.settings();
        let setting = &settings[at % settings.len()];
        list.load(spoilt);
        list.add(typed(setting));
        list.add(named(setting));
        list.add(Call::Read(Leveller::name(setting.which)));
        list.add(Call::Reset);
        list.add(Call::Block(vec![0.5], 1));
        list.add(Call::Tell);
    }
}

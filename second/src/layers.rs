//! Names inside names, as request [9] asks: an opaque value that is a single
//! element of type 7 or 8 (RFC 6512) holds another P2MP element.

use crate::refusal::Refusal;
use crate::wire::{self, TreeName, ELEMENT_HEAD, LONGEST_OPAQUE};

/// Its value is a P2MP element.
pub const RECURSIVE: u8 = 7;
/// Its value is eight octets and then a P2MP element.
pub const VPN_RECURSIVE: u8 = 8;
pub const EIGHT: usize = 8;

/// What lies around a name: a root, and eight octets or none.
#[derive(Clone, Debug, PartialEq, Eq)]
pub struct Layer {
    pub root: Vec<u8>,
    pub eight: Vec<u8>,
}

/// The name inside, as octets, with what was around it. Refuses 6, 7 and 18,
/// 22 where nothing is inside, and 16.
pub fn unwrap(element: &[u8], room: usize) -> Result<(Vec<u8>, Layer), Refusal> {
    let name = wire::read_element(element)?;
    let (layer, inner) = peel(&name).ok_or(Refusal::LastLayer)?;
    let octets = wire::write_element(&inner);
    if octets.len() > room {
        return Err(Refusal::Room);
    }
    Ok((octets, layer))
}

/// The layers from the outside in, and the innermost name. Refuses 6, 7, 18.
pub fn read(element: &[u8]) -> Result<(Vec<Layer>, TreeName), Refusal> {
    let mut name = wire::read_element(element)?;
    let mut layers = Vec::new();
    while let Some((layer, inner)) = peel(&name) {
        layers.push(layer);
        name = inner;
    }
    Ok((layers, name))
}

/// None where the name is a last layer.
fn peel(name: &TreeName) -> Option<(Layer, TreeName)> {
    let (head, value) = name.opaque.split_at_checked(ELEMENT_HEAD)?;
    let length = u16::from_be_bytes([head[1], head[2]]);
    let front = match head[0] {
        RECURSIVE => 0,
        VPN_RECURSIVE => EIGHT,
        _ => return None,
    };
    if usize::from(length) != value.len() {
        return None;
    }
    let (eight, inner) = value.split_at_checked(front)?;
    let layer = Layer {
        root: name.root.clone(),
        eight: eight.to_vec(),
    };
    Some((layer, wire::read_element(inner).ok()?))
}

/// The name within a root and, where there are some, eight octets. Refuses 6,
/// 7, 18 and 16; 7 also where the opaque value would be too long.
pub fn wrap(layer: &Layer, element: &[u8], room: usize) -> Result<Vec<u8>, Refusal> {
    let sized = wire::is_root(&layer.root) && [0, EIGHT].contains(&layer.eight.len());
    let inner = wire::read_element(element);
    if !sized || inner == Err(Refusal::Element) {
        return Err(Refusal::Element);
    }
    let value = [&layer.eight[..], element].concat();
    if ELEMENT_HEAD + value.len() > LONGEST_OPAQUE {
        return Err(Refusal::OpaqueLength);
    }
    inner?;
    let kind = if layer.eight.is_empty() {
        RECURSIVE
    } else {
        VPN_RECURSIVE
    };
    let octets = wire::write_element(&TreeName {
        root: layer.root.clone(),
        opaque: wire::write_opaque_element(kind, &value),
    });
    if octets.len() > room {
        return Err(Refusal::Room);
    }
    Ok(octets)
}

#[cfg(test)]
#[path = "layers_tests.rs"]
mod tests;

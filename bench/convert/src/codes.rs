//! The codes of 01, 1.8 and 4.1, from what naga has for them.

use naga::valid::Capabilities;
use naga::{
    AddressSpace, Binding, BuiltIn, ImageClass, SampleLevel, StorageAccess, Type, TypeInner,
    UniqueArena,
};

/// The capability byte (01, 1.8).
pub fn capabilities(capabilities: Capabilities) -> u8 {
    [
        Capabilities::TEXTURE_AND_SAMPLER_BINDING_ARRAY_NON_UNIFORM_INDEXING,
        Capabilities::STORAGE_TEXTURE_BINDING_ARRAY_NON_UNIFORM_INDEXING,
        Capabilities::BUFFER_BINDING_ARRAY_NON_UNIFORM_INDEXING,
        Capabilities::STORAGE_BUFFER_BINDING_ARRAY_NON_UNIFORM_INDEXING,
    ]
    .into_iter()
    .enumerate()
    .map(|(bit, capability)| u8::from(capabilities.contains(capability)) << bit)
    .sum()
}

/// A global's space byte (01, 1.8).
pub fn space(space: AddressSpace) -> u8 {
    match space {
        AddressSpace::Function => 0,
        AddressSpace::Private => 1,
        AddressSpace::RayPayload => 2,
        AddressSpace::IncomingRayPayload => 3,
        AddressSpace::WorkGroup => 4,
        AddressSpace::TaskPayload => 5,
        AddressSpace::Uniform => 6,
        AddressSpace::Immediate => 7,
        AddressSpace::Storage { access } if access.contains(StorageAccess::STORE) => 9,
        AddressSpace::Storage { .. } => 8,
        AddressSpace::Handle => 10,
    }
}

/// An argument's byte (01, 1.8): the built-ins that are the same for a whole work group.
pub fn argument(binding: Option<&Binding>) -> u8 {
    match binding {
        Some(Binding::BuiltIn(BuiltIn::WorkGroupId)) => 1,
        Some(Binding::BuiltIn(BuiltIn::WorkGroupSize)) => 2,
        Some(Binding::BuiltIn(BuiltIn::NumWorkGroups)) => 3,
        _ => 0,
    }
}

/// The sub of an Access, from its base's type (01, 4.1).
///
/// A binding array of buffers is reached through a pointer to it. The release doesn't look behind that
/// pointer, so for it, and here, such a base is no binding array (`docs/DIFFERENCES.md`, D3).
pub fn access(base: &TypeInner, types: &UniqueArena<Type>) -> u8 {
    let TypeInner::BindingArray { base: element, .. } = *base else {
        return 0;
    };
    match types[element].inner {
        TypeInner::Image {
            class: ImageClass::Storage { .. },
            ..
        } => 1,
        TypeInner::Image { .. } | TypeInner::Sampler { .. } => 2,
        _ => 3,
    }
}

/// The sub of an ImageSample (01, 4.1).
pub fn level(level: SampleLevel) -> u8 {
    match level {
        SampleLevel::Auto => 0,
        SampleLevel::Zero => 1,
        SampleLevel::Exact(_) => 2,
        SampleLevel::Bias(_) => 3,
        SampleLevel::Gradient { .. } => 4,
    }
}

#[cfg(test)]
mod tests {
    use super::*;

    #[test]
    fn each_capability_has_its_own_bit() {
        assert_eq!(capabilities(Capabilities::empty()), 0);
        assert_eq!(capabilities(Capabilities::all()), 15);
        assert_eq!(
            capabilities(Capabilities::STORAGE_TEXTURE_BINDING_ARRAY_NON_UNIFORM_INDEXING),
            2
        );
        assert_eq!(
            capabilities(Capabilities::STORAGE_BUFFER_BINDING_ARRAY_NON_UNIFORM_INDEXING),
            8
        );
    }

    #[test]
    fn storage_is_told_apart_by_store_alone() {
        let storage = |access| space(AddressSpace::Storage { access });
        assert_eq!(storage(StorageAccess::LOAD), 8);
        assert_eq!(storage(StorageAccess::LOAD | StorageAccess::ATOMIC), 8);
        assert_eq!(storage(StorageAccess::STORE), 9);
        assert_eq!(storage(StorageAccess::all()), 9);
    }
}

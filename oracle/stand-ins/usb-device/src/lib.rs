//! Stand-in for usb-device: the types that keyberon's hid module speaks of.
//!
//! Kept of the real crate: names and signatures, as far as hid.rs uses them, and no behaviour at all. The
//! oracle calls the keyboard record directly and never runs a USB bus, so the types that only a bus makes
//! have no values here, and the compiler sees that their methods cannot run.

/// A value that cannot exist: whatever holds one is never made.
#[derive(Clone, Copy, PartialEq)]
enum Never {}

pub enum UsbError {
    WouldBlock,
    InvalidState,
}

pub type Result<T> = std::result::Result<T, UsbError>;

pub mod bus {
    use crate::endpoint::EndpointIn;
    use crate::Never;
    use std::marker::PhantomData;

    pub trait UsbBus {}

    #[derive(Clone, Copy)]
    pub struct InterfaceNumber(Never);

    impl From<InterfaceNumber> for u8 {
        fn from(number: InterfaceNumber) -> u8 {
            match number.0 {}
        }
    }

    pub struct StringIndex(#[allow(dead_code)] Never);

    pub struct UsbBusAllocator<B> {
        never: Never,
        bus: PhantomData<B>,
    }

    impl<B> UsbBusAllocator<B> {
        pub fn interface(&self) -> InterfaceNumber {
            match self.never {}
        }

        pub fn interrupt(&self, _packet_size: u16, _interval: u8) -> EndpointIn<'_, B> {
            match self.never {}
        }
    }
}

pub mod endpoint {
    use crate::{Never, Result};
    use std::marker::PhantomData;

    #[derive(Clone, Copy, PartialEq)]
    pub struct EndpointAddress(Never);

    pub struct EndpointIn<'a, B> {
        never: Never,
        bus: PhantomData<&'a B>,
    }

    impl<B> EndpointIn<'_, B> {
        pub fn address(&self) -> EndpointAddress {
            match self.never {}
        }

        pub fn write(&self, _data: &[u8]) -> Result<usize> {
            match self.never {}
        }
    }
}

pub mod descriptor {
    use crate::bus::InterfaceNumber;
    use crate::endpoint::EndpointIn;
    use crate::{Never, Result};

    pub struct DescriptorWriter(Never);

    impl DescriptorWriter {
        pub fn interface(
            &mut self,
            _number: InterfaceNumber,
            _class: u8,
            _subclass: u8,
            _protocol: u8,
        ) -> Result<()> {
            match self.0 {}
        }

        pub fn write(&mut self, _descriptor: u8, _data: &[u8]) -> Result<()> {
            match self.0 {}
        }

        pub fn endpoint<B>(&mut self, _endpoint: &EndpointIn<'_, B>) -> Result<()> {
            match self.0 {}
        }
    }
}

pub mod control {
    #[derive(Clone, Copy, PartialEq)]
    pub enum RequestType {
        Standard,
        Class,
        Vendor,
    }

    #[derive(Clone, Copy, PartialEq)]
    pub enum Recipient {
        Device,
        Interface,
    }

    #[derive(Clone, Copy)]
    pub struct Request {
        pub request_type: RequestType,
        pub recipient: Recipient,
        pub request: u8,
        pub value: u16,
        pub index: u16,
    }

    impl Request {
        pub const GET_DESCRIPTOR: u8 = 6;

        pub fn descriptor_type_index(&self) -> (u8, u8) {
            let [kind, index] = self.value.to_be_bytes();
            (kind, index)
        }
    }
}

pub mod class {
    use crate::bus::StringIndex;
    use crate::control::Request;
    use crate::descriptor::DescriptorWriter;
    use crate::endpoint::EndpointAddress;
    use crate::{Never, Result};
    use std::marker::PhantomData;

    pub struct ControlIn<B> {
        never: Never,
        bus: PhantomData<B>,
    }

    impl<B> ControlIn<B> {
        pub fn request(&self) -> &Request {
            match self.never {}
        }

        pub fn accept_with(self, _data: &[u8]) -> Result<()> {
            match self.never {}
        }

        pub fn reject(self) -> Result<()> {
            match self.never {}
        }
    }

    pub struct ControlOut<B> {
        never: Never,
        bus: PhantomData<B>,
    }

    impl<B> ControlOut<B> {
        pub fn request(&self) -> &Request {
            match self.never {}
        }

        pub fn data(&self) -> &[u8] {
            match self.never {}
        }

        pub fn accept(self) -> Result<()> {
            match self.never {}
        }

        pub fn reject(self) -> Result<()> {
            match self.never {}
        }
    }

    pub trait UsbClass<B> {
        fn poll(&mut self);
        fn reset(&mut self);
        fn get_configuration_descriptors(&self, writer: &mut DescriptorWriter) -> Result<()>;
        fn get_string(&self, index: StringIndex, language: u16) -> Option<&str>;
        fn endpoint_in_complete(&mut self, address: EndpointAddress);
        fn endpoint_out(&mut self, address: EndpointAddress);
        fn control_in(&mut self, transfer: ControlIn<B>);
        fn control_out(&mut self, transfer: ControlOut<B>);
    }
}

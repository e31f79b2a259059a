//! A RESPONSE, as `write` and as `send` take it.

use super::words::Words;
use calls::Response;

impl Words<'_> {
    /// A RESPONSE as `write` takes it: two more than `send` does, and an ExpDataSN of a SCSI Response, which may be left out.
    pub fn response(&mut self) -> Option<Response> {
        let response = match self.word()? {
            b"data-in" => Response::DataIn {
                final_bit: self.bit()?,
                acknowledge: self.bit()?,
                data_segment_length: self.u32()?,
                lun: self.u64()?,
                itt: self.u32()?,
                ttt: self.u32()?,
                data_sn: self.u32()?,
                buffer_offset: self.u32()?,
            },
            b"r2t" => Response::R2t {
                lun: self.u64()?,
                itt: self.u32()?,
                ttt: self.u32()?,
                r2t_sn: self.u32()?,
                buffer_offset: self.u32()?,
                desired_data_transfer_length: self.u32()?,
            },
            kind => {
                let mut status = self.status_of(kind)?;
                if let Response::Scsi { exp_data_sn, .. } = &mut status
                    && !self.are_over()
                {
                    *exp_data_sn = self.u32()?;
                }
                status
            }
        };
        Some(response)
    }

    /// A RESPONSE as `send` takes it.
    pub fn status(&mut self) -> Option<Response> {
        let kind = self.word()?;
        self.status_of(kind)
    }

    fn status_of(&mut self, kind: &[u8]) -> Option<Response> {
        let response = match kind {
            b"nop-in" => Response::NopIn {
                data_segment_length: self.u32()?,
                lun: self.u64()?,
                itt: self.u32()?,
                ttt: self.u32()?,
            },
            b"scsi-response" => Response::Scsi {
                overflow: self.bit()?,
                underflow: self.bit()?,
                response: self.u8()?,
                status: self.u8()?,
                data_segment_length: self.u32()?,
                itt: self.u32()?,
                snack_tag: self.u32()?,
                residual: self.u32()?,
                exp_data_sn: 0,
            },
            b"task-response" => Response::TaskManagement {
                response: self.u8()?,
                itt: self.u32()?,
            },
            b"login-response" => Response::Login {
                csg: self.u8()?,
                transit: self.bit()?,
                nsg: self.u8()?,
                data_segment_length: self.u32()?,
                isid: self.u64()?,
                tsih: self.u16()?,
                itt: self.u32()?,
                status_class: self.u8()?,
                status_detail: self.u8()?,
            },
            b"logout-response" => Response::Logout {
                response: self.u8()?,
                itt: self.u32()?,
                time2wait: self.u16()?,
                time2retain: self.u16()?,
            },
            b"reject" => Response::Reject { reason: self.u8()? },
            _ => return None,
        };
        Some(response)
    }
}

with Ada.Unchecked_Deallocation;

package body RBC is

   procedure Free is new Ada.Unchecked_Deallocation (Message_Array, Message_Access);

   function Address_Of (Text : String) return System.Address is
     (if Text'Length = 0 then System.Null_Address else Text (Text'First)'Address);

   --  Room for so many messages, in place of the room there was. Done is false, and the room stays, where there is no
   --  memory.

   procedure Make_Room (Self : in out Desk; Count : size_t; Done : out Boolean) is
      Old : Message_Access := Self.Out_To;
   begin
      Self.Out_To := new Message_Array (1 .. Positive (Count));
      Free (Old);
      Done := True;
   exception
      when Storage_Error =>
         Done := False;
   end Make_Room;

   procedure Open (Self : in out Desk; Track : String; Code : out Status) is
   begin
      Code := Raw_Open (Self.Raw, Address_Of (Track), Track'Length);
   end Open;

   procedure Feed (Self : in out Desk; Line : String; Result : out Answer; Code : out Status) is
      Has_Room : Boolean;
   begin
      Result := (0, 0);
      loop
         if Self.Out_To = null then
            Code := Raw_Feed (Self.Raw, Address_Of (Line), Line'Length, System.Null_Address, 0, Result);
         else
            Code := Raw_Feed (Self.Raw, Address_Of (Line), Line'Length, Self.Out_To.all'Address, Self.Out_To'Length,
                              Result);
         end if;
         exit when Code /= No_Room;
         Make_Room (Self, Result.Count, Has_Room);
         if not Has_Room then
            Result := (0, 0);
            Code   := No_Memory;
            exit;
         end if;
      end loop;
   end Feed;

   function Sent (Self : Desk; Index : Positive) return Message is (Self.Out_To (Index));

   --  Asks for a list.

   generic
      type Item is private;
      type Item_Array is array (Positive range <>) of Item;
      with function Raw
        (Self : in out Handle; To : System.Address; Room : size_t; Count : in out size_t) return Status;
   procedure Ask (Self : in out Desk; Found : in out Item_Array; Count : out Natural; Code : out Status);

   procedure Ask (Self : in out Desk; Found : in out Item_Array; Count : out Natural; Code : out Status) is
      Stand : size_t := 0;
   begin
      if Found'Length = 0 then
         Code := Raw (Self.Raw, System.Null_Address, 0, Stand);
      else
         Code := Raw (Self.Raw, Found (Found'First)'Address, Found'Length, Stand);
      end if;
      Count := Natural (Stand);
   end Ask;

   procedure Ask_Alarms is new Ask (Alarm, Alarm_Array, Raw_Alarms);

   procedure Alarms (Self : in out Desk; Found : in out Alarm_Array; Count : out Natural; Code : out Status)
      renames Ask_Alarms;

   procedure Ask_Trains is new Ask (Train, Train_Array, Raw_Trains);

   procedure Trains
     (Self : in out Desk; Found : in out Train_Array; Count : out Natural; Code : out Status)
      renames Ask_Trains;

   procedure Ask_Stops is new Ask (Stop_Segment, Stop_Segment_Array, Raw_Stops);

   procedure Stops
     (Self : in out Desk; Found : in out Stop_Segment_Array; Count : out Natural; Code : out Status)
      renames Ask_Stops;

   procedure Ask_Restrictions is new Ask (Active_Restriction, Active_Restriction_Array, Raw_Restrictions);

   procedure Restrictions
     (Self : in out Desk; Found : in out Active_Restriction_Array; Count : out Natural; Code : out Status)
      renames Ask_Restrictions;

   procedure Ask_Outstanding is new Ask (Outstanding_Entry, Outstanding_Entry_Array, Raw_Outstanding);

   procedure Outstanding
     (Self : in out Desk; Found : in out Outstanding_Entry_Array; Count : out Natural; Code : out Status)
      renames Ask_Outstanding;

   procedure Explain
     (Self : in out Desk; Line : String; Text : in out String; Count : out Natural; Code : out Status)
   is
      Length : size_t := 0;
   begin
      if Text'Length = 0 then
         Code := Raw_Explain (Self.Raw, Address_Of (Line), Line'Length, System.Null_Address, 0, Length);
      else
         Code := Raw_Explain
           (Self.Raw, Address_Of (Line), Line'Length, Text (Text'First)'Address, Text'Length, Length);
      end if;
      Count := Natural (Length);
   end Explain;

   procedure Check (Track : String; Text : in out String; Result : out Report; Code : out Status) is
   begin
      Result := (0, 0, 0);
      if Text'Length = 0 then
         Code := Raw_Check (Address_Of (Track), Track'Length, System.Null_Address, 0, Result);
      else
         Code := Raw_Check (Address_Of (Track), Track'Length, Text (Text'First)'Address, Text'Length, Result);
      end if;
   end Check;

   procedure Close (Self : in out Desk; Code : out Status) is
   begin
      Code := Raw_Close (Self.Raw);
   end Close;

   overriding procedure Finalize (Self : in out Desk) is
      Code : Status;
   begin
      Close (Self, Code); --  Not_Now where it was closed
      Free (Self.Out_To);
   end Finalize;

end RBC;

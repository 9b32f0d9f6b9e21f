--  A live desk for Ada 2012, over librbc. Link with: -largs $(pkg-config --libs rbc)
--
--  No call raises an exception: each answers a Status. If it is not Done, nothing is changed, and the call may be made
--  again. A refused line is no fault: the Answer of Feed has its code. A desk is closed where its scope ends. One call
--  at a time may be made on it.
--
--  rbc.h says what each field means. live.adb and desk.adb are whole programs.

with Ada.Finalization;
with Interfaces;   use Interfaces;
with Interfaces.C; use Interfaces.C;
with System;

package RBC is

   --  What a call answers.

   type Status is new Unsigned_32;
   Done           : constant Status := 0;
   No_Memory      : constant Status := 1;
   Not_Now        : constant Status := 2; --  no desk is open; at Open, one is
   No_Room        : constant Status := 3; --  never answered here: Feed makes room
   Version_Other  : constant Status := 4; --  the library is of another rbc.h
   Not_UTF8       : constant Status := 5; --  this and all below: of Open alone
   Track_Text     : constant Status := 10;
   Track_Shape    : constant Status := 11;
   Track_Lines    : constant Status := 12;
   Track_Groups   : constant Status := 13;
   Track_Length   : constant Status := 14;
   Track_Off_Line : constant Status := 15;
   Track_Twice    : constant Status := 16;

   --  What a line led to.

   type Answer is record
      Refused : Unsigned_32; --  0: it was accepted. Else the code of the refusal
      Count   : size_t;      --  how many messages it sent
   end record
     with Convention => C, Size => 16 * 8;

   --  A message to one train. The first Length bytes count.

   type Byte_Array is array (Positive range <>) of Unsigned_8 with Convention => C;

   type Message is record
      Engine : Unsigned_32;
      Length : Unsigned_32;
      Bytes  : Byte_Array (1 .. 1_024);
   end record
     with Convention => C, Size => 1_032 * 8;

   --  An alarm that stands.

   type Alarm_Kind is (Place, Stop, Restriction, Unanswered) with Convention => C, Size => 32;

   type Alarm is record
      Engine : Unsigned_32;
      Kind   : Alarm_Kind;
      Number : Unsigned_32; --  of the stop or the restriction; 0 at Place
   end record
     with Convention => C, Size => 12 * 8;

   type Alarm_Array is array (Positive range <>) of Alarm with Convention => C;

   --  How a train faces, or which trains a restriction is for.

   type Way is (Down, Up, Both) with Convention => C, Size => 32;

   --  A train that is enrolled.

   type Train is record
      Engine       : Unsigned_32;
      Length       : Unsigned_32;
      Stamp        : Unsigned_32;
      Placed       : Unsigned_32; --  1: its place is known. 0: the next four fields mean nothing
      Line         : Unsigned_32;
      From         : Unsigned_32;
      To           : Unsigned_32;
      Facing       : Way;
      Stops        : Unsigned_32; --  how many of its stop identifiers are held
      Restrictions : Unsigned_32; --  how many of its restriction identifiers are held
   end record
     with Convention => C, Size => 40 * 8;

   type Train_Array is array (Positive range <>) of Train with Convention => C;

   --  One segment of an active stop.

   type Stop_Segment is record
      Number : Unsigned_32;
      Line   : Unsigned_32;
      From   : Unsigned_32;
      To     : Unsigned_32;
   end record
     with Convention => C, Size => 16 * 8;

   type Stop_Segment_Array is array (Positive range <>) of Stop_Segment with Convention => C;

   --  An active restriction.

   type Active_Restriction is record
      Number : Unsigned_32;
      Line   : Unsigned_32;
      From   : Unsigned_32;
      To     : Unsigned_32;
      Ways   : Way;
      Speed  : Unsigned_32; --  km/h
      Front  : Unsigned_32; --  Q_FRONT
   end record
     with Convention => C, Size => 28 * 8;

   type Active_Restriction_Array is array (Positive range <>) of Active_Restriction with Convention => C;

   --  An identifier whose message waits for an answer or an acknowledgement.

   type Waiting_Kind is
     (Conditional_Stop, Unconditional_Stop, Told_Restriction, Revocation_Of_Stop, Revocation_Of_Restriction)
     with Convention => C, Size => 32;

   type Outstanding_Entry is record
      Engine     : Unsigned_32;
      Kind       : Waiting_Kind;
      Number     : Unsigned_32; --  of the stop or the restriction; 0 where the identifier is being revoked
      Identifier : Unsigned_32;
      Stamp      : Unsigned_32;
   end record
     with Convention => C, Size => 20 * 8;

   type Outstanding_Entry_Array is array (Positive range <>) of Outstanding_Entry with Convention => C;

   --  What came of the check of a track.

   type Report is record
      Refused  : Unsigned_32; --  0: it is a track. Else the rule that its text breaks first, as a Status
      Warnings : size_t;
      Count    : size_t;      --  how many characters the report has
   end record
     with Convention => C, Size => 24 * 8;

   --  The number of the rules, as `dispatch --version` tells it.

   function Rules return Unsigned_32 with Import, Convention => C, External_Name => "rbc_rules";

   --  Checks the text of a track, as `dispatch check` does, and writes the report into Text, as much as there is room
   --  for.

   procedure Check (Track : String; Text : in out String; Result : out Report; Code : out Status);

   --  A desk. It is closed at first.

   type Desk is limited private;

   --  Opens a desk on the text of a track.

   procedure Open (Self : in out Desk; Track : String; Code : out Status);

   --  Feeds one line, without its line feed. At Done, Sent (Self, 1) to Sent (Self, Result.Count) are its messages,
   --  until the next Feed.

   procedure Feed (Self : in out Desk; Line : String; Result : out Answer; Code : out Status);

   function Sent (Self : Desk; Index : Positive) return Message;

   --  Writes the alarms that stand into Found, as many as there is room for: engines ascending, those of one train by
   --  kind and number. Count is how many stand: where that is more than Found'Length, ask again with that room.

   procedure Alarms (Self : in out Desk; Found : in out Alarm_Array; Count : out Natural; Code : out Status);

   --  Likewise the trains that are enrolled; the segments of the active stops; the active restrictions; and what waits
   --  for an answer or an acknowledgement. rbc.h says in which order.

   procedure Trains
     (Self : in out Desk; Found : in out Train_Array; Count : out Natural; Code : out Status);

   procedure Stops
     (Self : in out Desk; Found : in out Stop_Segment_Array; Count : out Natural; Code : out Status);

   procedure Restrictions
     (Self : in out Desk; Found : in out Active_Restriction_Array; Count : out Natural; Code : out Status);

   procedure Outstanding
     (Self : in out Desk; Found : in out Outstanding_Entry_Array; Count : out Natural; Code : out Status);

   --  Likewise, in words, why the desk refuses a line. Count is 0 if it would accept the line.

   procedure Explain
     (Self : in out Desk; Line : String; Text : in out String; Count : out Natural; Code : out Status);

   --  Closes a desk, and gives its memory back. It may be opened again.

   procedure Close (Self : in out Desk; Code : out Status);

private

   Version : constant Unsigned_8 := 3; --  RBC_VERSION of the rbc.h that the records above repeat

   --  rbc_desk.

   type Handle is record
      Version : Unsigned_8     := RBC.Version;
      Open    : Unsigned_8     := 0;
      Memory  : System.Address := System.Null_Address;
   end record
     with Convention => C, Size => 16 * 8;

   type Message_Array is array (Positive range <>) of Message with Convention => C;
   type Message_Access is access Message_Array;

   type Desk is new Ada.Finalization.Limited_Controlled with record
      Raw    : Handle;
      Out_To : Message_Access;
   end record;

   overriding procedure Finalize (Self : in out Desk);

   --  The functions of rbc.h.

   function Raw_Open (Self : in out Handle; Track : System.Address; Length : size_t) return Status
     with Import, Convention => C, External_Name => "rbc_open";

   function Raw_Feed
     (Self : in out Handle; Line : System.Address; Length : size_t; To : System.Address; Room : size_t;
      Result : in out Answer) return Status
     with Import, Convention => C, External_Name => "rbc_feed";

   function Raw_Alarms (Self : in out Handle; To : System.Address; Room : size_t; Count : in out size_t) return Status
     with Import, Convention => C, External_Name => "rbc_alarms";

   function Raw_Trains
     (Self : in out Handle; To : System.Address; Room : size_t; Count : in out size_t) return Status
     with Import, Convention => C, External_Name => "rbc_trains";

   function Raw_Stops
     (Self : in out Handle; To : System.Address; Room : size_t; Count : in out size_t) return Status
     with Import, Convention => C, External_Name => "rbc_stops";

   function Raw_Restrictions
     (Self : in out Handle; To : System.Address; Room : size_t; Count : in out size_t) return Status
     with Import, Convention => C, External_Name => "rbc_restrictions";

   function Raw_Outstanding
     (Self : in out Handle; To : System.Address; Room : size_t; Count : in out size_t) return Status
     with Import, Convention => C, External_Name => "rbc_outstanding";

   function Raw_Explain
     (Self : in out Handle; Line : System.Address; Length : size_t; To : System.Address; Room : size_t;
      Count : in out size_t) return Status
     with Import, Convention => C, External_Name => "rbc_explain_line";

   function Raw_Check
     (Track : System.Address; Length : size_t; To : System.Address; Room : size_t; Result : in out Report) return Status
     with Import, Convention => C, External_Name => "rbc_check";

   function Raw_Close (Self : in out Handle) return Status
     with Import, Convention => C, External_Name => "rbc_close";

end RBC;

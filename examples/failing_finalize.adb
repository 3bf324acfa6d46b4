--  A Finalize that raises an exception stops no other finalization: both objects of the block are finalized, and then the block
--  raises Program_Error (RM 7.6.1 (13 to 20)). Nothing handles it, so it leaves the main procedure too.
with Ada.Finalization; use Ada.Finalization;
with Ada.Text_IO;      use Ada.Text_IO;

procedure Failing_Finalize is
   type Channel is new Limited_Controlled with null record;
   type Buffer is new Limited_Controlled with null record;

   overriding procedure Finalize (X : in out Channel);
   overriding procedure Finalize (X : in out Buffer);

   Not_Flushed : exception;

   procedure Finalize (X : in out Channel) is
   begin
      Put_Line ("channel closed");
   end Finalize;

   procedure Finalize (X : in out Buffer) is
   begin
      Put_Line ("buffer not flushed");
      raise Not_Flushed;
   end Finalize;
begin
   declare
      Line : Channel;
      Data : Buffer;
   begin
      Put_Line ("work");
   end;
   Put_Line ("never reached");
end Failing_Finalize;

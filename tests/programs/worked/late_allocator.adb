--  An allocator raises Program_Error where the finalization of its collection has begun (RM 4.8, 7.6.1).
with Ada.Finalization; use Ada.Finalization;
with Ada.Text_IO;      use Ada.Text_IO;

procedure Late_Allocator is
   type T is new Controlled with record
      N : Integer := 0;
   end record;

   overriding procedure Adjust (X : in out T);
   overriding procedure Finalize (X : in out T);

   procedure Adjust (X : in out T) is
   begin
      Put_Line ("A" & Integer'Image (X.N));
   end Adjust;

   procedure Finalize (X : in out T) is
   begin
      Put_Line ("F" & Integer'Image (X.N));
   end Finalize;
begin
   declare
      type Node;
      type Link is access Node;
      type Node is new Limited_Controlled with null record;

      overriding procedure Finalize (X : in out Node);

      procedure Finalize (X : in out Node) is
         V : Link;
      begin
         V := new Node;
         Put_Line ("made");
      exception
         when Program_Error =>
            Put_Line ("PE");
      end Finalize;

      H : Link;
   begin
      H := new Node;
   end;
end Late_Allocator;

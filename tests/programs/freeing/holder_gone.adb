--  The object that has the freed component is freed itself by the Finalize, and so gone before the component becomes
--  null (RM 13.11.2).
with Ada.Finalization; use Ada.Finalization;
with Ada.Text_IO;      use Ada.Text_IO;
with Ada.Unchecked_Deallocation;

procedure Holder_Gone is
begin
   declare
      type Node;
      type Link is access Node;

      type Node is new Limited_Controlled with record
         N    : Integer := 0;
         Next : Link;
      end record;

      overriding procedure Finalize (X : in out Node);

      procedure Free is new Ada.Unchecked_Deallocation (Node, Link);

      Root : Link;

      procedure Finalize (X : in out Node) is
      begin
         Put_Line ("N" & Integer'Image (X.N));
         if X.N = 2 then
            Free (Root);
         end if;
      end Finalize;
   begin
      Root := new Node;
      Root.N := 1;
      Root.Next := new Node;
      Root.Next.N := 2;
      Free (Root.Next);
   end;
end Holder_Gone;

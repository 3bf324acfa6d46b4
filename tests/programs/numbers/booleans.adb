--  Constants of Boolean; False is less than True; a chain of three operators of one kind goes from left to right, and a
--  short-circuit form ends where its value is known (RM 3.3.1, 3.5.3, 4.5.1, 4.5.2).
with Ada.Text_IO; use Ada.Text_IO;

procedure Booleans is
   Yes : constant Boolean := True;
   No  : constant Boolean := not Yes;

   function Seen (B : Boolean) return Boolean is
   begin
      Put (Boolean'Image (B) & ",");
      return B;
   end Seen;

   procedure Show (B : in Boolean) is
   begin
      Put_Line (Boolean'Image (B));
   end Show;
begin
   Show (No < Yes);
   Show (Yes < No);
   Show (Yes <= Yes);
   Show (No >= Yes);
   Show (Yes > No);
   Show (Seen (Yes) and Seen (No) and Seen (Yes) and Seen (Yes));
   Show (Yes and Yes and not No and Yes);
   Show (Seen (No) or Seen (No) or Seen (Yes) or Seen (No));
   Show (Yes xor Yes xor Yes xor No);
   Show (Seen (Yes) and then Seen (No) and then Seen (Yes) and then Seen (Yes));
   Show (Seen (No) or else Seen (No) or else Seen (Yes) or else Seen (No));
end Booleans;
